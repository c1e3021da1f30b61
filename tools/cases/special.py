"""Every special register read and written at the corner values, on both machines."""
from cases.corners import MARK, VALUES
from words_expected import word

PLACES = {"checker-step": {"code-words": 1, "pc": 4}, "vamp-step": {"pc": 4}}
FIRST = {"checker-step": "code0", "vamp-step": "memory0"}

# Other registers hold marks, so that a wrong number shows.
MARKS = {f"spr{n}": 256 + n for n in range(12)}


def cases(call):
    def fill(group):
        for n in range(32):
            for value in VALUES:
                written = {**PLACES[call], FIRST[call]: word(f"movi2s SPR[{n}],r1"), "r1": value}
                group.call(f"movi2s {n} of {value}", call, {**written, f"spr{(n + 1) % 12}": MARK})
                reading = {**PLACES[call], FIRST[call]: word(f"movs2i r1,SPR[{n}]"), "r1": MARK, f"spr{(n + 1) % 12}": MARK}
                # A value in a register that must be 0 is a fault: 11.
                group.call(f"movs2i {n} of {value}", call, {**reading, f"spr{n}": value})
        for n in range(32):
            marked = {**PLACES[call], FIRST[call]: word(f"movs2i r1,SPR[{n}]"), "r1": MARK, **MARKS}
            group.call(f"movs2i {n} among marks", call, marked)
            group.call(f"movs2i {n} to R0", call, {**marked, FIRST[call]: word(f"movs2i r0,SPR[{n}]")})
            group.call(f"movi2s {n} of R0", call, {**marked, FIRST[call]: word(f"movi2s SPR[{n}],r0")})
    return fill


ABOUT = "every special register by movi2s and movs2i at the corner values."

GROUPS = {
    "checker/special-corners": (ABOUT, cases("checker-step")),
    "vamp/special-corners": (ABOUT, cases("vamp-step")),
}
