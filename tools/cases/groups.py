"""A group of cases: its call lines and its answer lines, side by side."""
import collections

from call_answers import answer_line
from call_lines import write


class Group:
    """The lines of tests/PATH.calls and tests/PATH.answers. The first is a comment that says what the group holds."""

    def __init__(self, path, about):
        self.path, self.calls, self.answers, self.counts = path, [], [], collections.Counter()
        self.line(f"# {path}: {about}")

    def head(self, text):
        """One comment more behind the first."""
        self.calls.insert(1, f"# {text}")
        self.answers.insert(1, f"# {text}")

    def call(self, name, call, given=None, operands=()):
        """A case; the name is that of its line behind the path."""
        line = write(f"{self.path}/{name}", call, given, operands)
        self.calls.append(line)
        self.answers.append(answer_line(line))

    def numbered(self, name, call, given=None, operands=()):
        """A case of many: with the next number of its name."""
        self.counts[name] += 1
        self.call(f"{name} {self.counts[name]}", call, given, operands)

    def line(self, text, answer=None):
        """A line as it stands, with the answer that the format's rules say; the line itself where none is given."""
        answer = text if answer is None else answer
        assert answer_line(text) == answer, (text, answer_line(text), answer)
        self.calls.append(text)
        self.answers.append(answer)


def made(path, about, fill):
    """The group that a function fills."""
    group = Group(path, about)
    fill(group)
    return group
