"""The cases of the tests: each module names its groups in `GROUPS`, and tools/make_tests writes them to tests/."""
