"""Cards loaded into buffers that are in use."""
import struct

from call_lines import card_places
from card_expected import BUFFERS, SPECIALS, card

# What the buffers hold before a load: everywhere, or in one word of each hundred, the last one and the one past the end, so
# that the answer of a load stays short.
USED = {"code": 0xA5A5A5A5, "data": 0x5A5A5A5A, "memory": 0xC3C3C3C3}
SPARSE = {f"{name}{n}": USED[name] for name, count in (("code", 1024), ("data", 1024), ("memory", 4096))
          for n in [*range(count % 100, count, 100), count - 1, count]}

RIGHT = tuple(BUFFERS.values())

FRONT = 0x01444E53  # SND and version 1, the number at offset 0


def load(group, at, number, text, lengths=RIGHT, used=USED):
    """A load of a card that was given a number at an offset."""
    assert len(text) < at + 4 or struct.unpack_from("<I", text, at)[0] == number
    name = f"{number:08x} at {at}, {len(text)} bytes into {lengths[0]} {lengths[1]} {lengths[2]}"
    given = {**used, **card_places(text), **{f"{buffer}-length": n for buffer, n in zip(BUFFERS, lengths)}}
    group.call(name, "load", given)


def lent(group):
    for lengths in ((1023, 1024, 2048), (1025, 1024, 2048), (1024, 1023, 2048), (1024, 1025, 2048), (1024, 1024, 2047),
                    (1024, 1024, 2049), (0, 0, 0)):
        load(group, 0, FRONT, card(), lengths)


def header(group):
    load(group, 0, FRONT, b"")
    load(group, 0, FRONT, card()[:291])
    load(group, 0, 0x01444E54, card(mark=b"TND"))
    load(group, 0, 0x01446E53, card(mark=b"SnD"))
    load(group, 0, 0x01644E53, card(mark=b"SNd"))
    load(group, 0, 0x00444E53, card(version=0))
    load(group, 0, 0x02444E53, card(version=2))
    load(group, 4, 0x00000001, card(version=257))
    load(group, 4, 0x00000100, card(zeros=b"\1\0\0"))
    load(group, 4, 0x00010000, card(zeros=b"\0\1\0"))
    load(group, 4, 0x01000000, card(zeros=b"\0\0\1"))


def counts(group):
    for c in (0, 1025, 0x40000003, 0xFFFFFFFF):
        load(group, 12, c, card(code=(0, c)))
    for d in (1025, 0x40000004):
        load(group, 20, d, card(data=(256, d)))
    load(group, 0, FRONT, card()[:292])
    load(group, 0, FRONT, card()[:319])
    load(group, 0, FRONT, card() + b"\0")
    load(group, 12, 4, card(code=(0, 4)))
    load(group, 20, 3, card(data=(256, 3)))


def regions(group):
    load(group, 8, 2, card(code=(2, 3)))
    load(group, 16, 257, card(data=(257, 4)))
    load(group, 8, 16376, card(code=(16376, 3)))
    load(group, 16, 16372, card(data=(16372, 4)))
    load(group, 8, 0xFFFFFFFC, card(code=(0xFFFFFFFC, 3)))
    load(group, 16, 0xFFFFFFF0, card(data=(0xFFFFFFF0, 4)))
    load(group, 16, 0, card(data=(0, 4)))
    load(group, 16, 8, card(data=(8, 4)))
    load(group, 8, 268, card(code=(268, 3)))
    load(group, 8, 260, card(code=(260, 3)))


def registers(group):
    load(group, 36, 1, card(general={0: 1}))
    load(group, 212, 1, card(special={12: 1}))
    load(group, 224, 1, card(special={15: 1}))
    load(group, 228, 1, card(special={SPECIALS["MODE"]: 1}))
    load(group, 232, 1, card(special={17: 1}))
    load(group, 288, 0x80000000, card(special={31: 0x80000000}))
    load(group, 32, 1000001, card(limit=1000001))
    load(group, 32, 0xFFFFFFFF, card(limit=0xFFFFFFFF))


def faults(group):
    """The faults from the last to the first, each beside those before."""
    f = {}

    def after(at, number, tail=b"", **more):
        f.update(more)
        load(group, at, number, card(**f) + tail)

    after(32, 1000001, limit=1000001)
    after(36, 1, general={0: 1})
    after(8, 16372, code=(16372, 3))
    after(16, 16368, data=(16368, 4))
    after(16, 16372, data=(16372, 4))
    after(8, 16374, code=(16374, 3))
    after(300, 0, b"\0")
    after(12, 1025, b"\0", code=(16374, 1025))
    after(4, 0x01000000, b"\0", zeros=b"\0\0\1")
    after(0, 0x02444E53, b"\0", version=2)
    after(0, 0x02444E54, b"\0", mark=b"TND")
    load(group, 300, 0, card(**f)[:291])
    load(group, 300, 0, card(**f)[:291], (1023, 1024, 2048))


def borders(group):
    f = {}

    def after(at, number, full=False, **more):
        f.update(more)
        load(group, at, number, card(**f), used=USED if full else SPARSE)

    after(300, 0, full=True)
    after(8, 4, code=(4, 3))
    after(24, 0xFFFFFFFF, dpc=0xFFFFFFFF)
    after(28, 0x80000001, pc=0x80000001)
    after(32, 0, limit=0)
    after(16, 20, full=True, data=(20, 4))
    after(16, 16, data=(16, 4))
    after(8, 16372, code=(16372, 3))
    after(16, 16356, full=True, data=(16356, 4))
    after(32, 1000000, limit=1000000)
    after(20, 0, data=(16356, 0), words=[0x2401FFFC, 0x8C220008, 0])
    after(16, 16376, full=True, data=(16376, 0))
    after(16, 16384, data=(16384, 0))
    after(16, 16388, data=(16388, 0))


def largest(group):
    words = struct.unpack("<2048I", bytes(i % 251 for i in range(292, 292 + 4 * 2048)))
    load(group, 16, 12288, card(code=(0, 1024), data=(12288, 1024), words=words), used=SPARSE)


GROUPS = {
    "card/lent": ("1: each buffer one short and one long, and all empty.", lent),
    "card/header": ("2 to 5.", header),
    "card/counts": ("6 and 7.", counts),
    "card/regions": ("8 to 10.", regions),
    "card/registers": ("11 and 12.", registers),
    "card/faults": ("the faults from the last to the first, each beside those before.", faults),
    "card/borders": ("cards at the borders, which are loaded; some into buffers that are in use everywhere.", borders),
    "card/largest": ("the longest card that is loaded.", largest),
}
