"""The sample cards of cards/, judged and loaded; and what the checker runs elsewhere, as cards that are judged."""
import make_cards
from call_lines import NUMBERS, card_places, parse
from card_expected import card
from cases import because, checker
from cases.card import SPARSE
from cases.groups import made

# The groups of the checker whose runs are short.
CHECKER = {**checker.GROUPS, **because.GROUPS}
RUNS = "because by-hand traps violations special transfers instructions".split()


def judged(group):
    for name, content, line, second in make_cards.samples():
        group.call(name, "judge", card_places(content))
        # By hand in make_cards, here by the simulator.
        told = f"{line} {second}" if second else line
        assert group.answers[-1] == f"cards/judge/{name}: {told}", name


def loaded(group):
    for name, content, line, _ in make_cards.samples():
        group.call(name, "load", {**card_places(content), **SPARSE})
        assert group.answers[-1] == f"cards/load/{name}: {line}" or not line.startswith("refused")


def card_of(given):
    """The card of a record with its code and data."""
    code_start, code_words, data_start, data_words, limit, dpc, pc = (given.numbers[place] for place in NUMBERS)
    words = given.array("code")[:code_words] + given.array("data")[:data_words]
    return card(code=(code_start, code_words), data=(data_start, data_words), dpc=dpc, pc=pc, limit=limit,
                general=dict(enumerate(given.array("r"))), special=dict(enumerate(given.array("spr"))), words=words)


def runs(group):
    for name in RUNS:
        for line in made(f"checker/{name}", *CHECKER[f"checker/{name}"]).calls[1:]:
            label, (call, _, _, given) = parse(line)
            if call == "checker-run":
                group.call(label.partition("/")[2], "judge", card_places(card_of(given)))


GROUPS = {
    "cards/judge": ("the verdict line of each sample card, and its second line.", judged),
    "cards/load": ("each sample card loaded.", loaded),
    "cards/runs": ("what the checker runs in its groups, as cards that are judged.", runs),
}
