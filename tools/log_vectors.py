#!/usr/bin/env python3
"""tools/log_vectors.py writes crates/log_vectors/stdin, blocks in hex, and crates/log_vectors/stdout, what the log of each is.

The lines of stdout are worked out here, by a reading of section 3 of docs/FORMAT.md with a checksum bit by bit, and never
by the program that they are held against. What is random comes from a generator in this file, so the same bytes come out
on every machine. With --check nothing is written, and the status is 1 where a file is not what is made here."""

import sys
from collections import namedtuple
from pathlib import Path

ALL_ONES = 0xFFFFFFFF
SUPERBLOCK = bytes.fromhex("0000020000020000080000004000000000001000fe030000")

Commit = namedtuple("Commit", "entries id tag end prior")


# The reading rule.


def crc(value, data):
    """The checksum of section 3.3, a bit at a time."""
    for byte in data:
        value ^= byte
        for _ in range(8):
            value = (value >> 1) ^ (0xEDB88320 if value & 1 else 0)
    return value


def commits_of(block):
    """The finished commits of a block, by the reading rule of section 3.4."""
    commits = []
    at, prior, total, begun = 4, ALL_ONES, crc(ALL_ONES, block[0:4]), []
    while at + 4 <= len(block):
        stored = block[at : at + 4]
        tag = int.from_bytes(stored, "big") ^ prior
        kind, number, length = (tag >> 20) & 0x7FF, (tag >> 10) & 0x3FF, tag & 0x3FF
        end = at + 4 + length
        if tag >> 31 or end > len(block):
            break
        if kind in (0x500, 0x501):
            if length < 4 or crc(total, stored) != int.from_bytes(block[at + 4 : at + 8], "little"):
                break
            prior = (tag & 0x7FFFFFFF) | ((tag >> 20 & 1) << 31)
            commits.append(Commit(begun, number, at, end, prior))
            total, begun = ALL_ONES, []
        else:
            begun.append((kind, number, at, block[at + 4 : end]))
            total, prior = crc(total, block[at:end]), tag
        at = end
    return commits


def line_of(block):
    """The line that is expected for a block: its survey, "empty" where no commit is finished, and each finished commit.

        revision RRRRRRRR commits N end OFFSET prior PPPPPPPP tag OFFSET id III behind erased|used
        | TYPE:ID:OFFSET:DATA TYPE:ID:OFFSET:DATA .. end:ID:TAG-OFFSET:END-OFFSET | ..

    It is one line, with one space between parts. `end`, `prior`, `tag` and `id` are those of the last finished commit: the
    offset behind it, what the next tag is XORed with, and the offset and the id of its ending tag. `behind` says whether
    all bytes from `end` on are 0xff. Offsets and the number of commits are decimal, all else is hexadecimal.
    """
    commits = commits_of(block)
    if not commits:
        return "empty"
    last = commits[-1]
    revision = int.from_bytes(block[0:4], "little")
    behind = "erased" if all(byte == 0xFF for byte in block[last.end :]) else "used"
    parts = [
        f"revision {revision:08x} commits {len(commits)} end {last.end} prior {last.prior:08x}"
        f" tag {last.tag} id {last.id:03x} behind {behind}"
    ]
    for commit in commits:
        parts.append("|")
        parts += [f"{kind:03x}:{number:03x}:{at}:{data.hex()}" for kind, number, at, data in commit.entries]
        parts.append(f"end:{commit.id:03x}:{commit.tag}:{commit.end}")
    return " ".join(parts)


# Writing logs, good and bad.


class Log:
    """A log that is being written. Every part of a tag can be chosen, so that bad logs can be written too."""

    def __init__(self, revision=1):
        self.data = bytearray(revision.to_bytes(4, "little"))
        self.prior = ALL_ONES
        self.start = 0

    def put(self, kind, number, data=b"", length=None, invalid=0):
        """A tag and its data; the length in the tag may be another than that of the data."""
        length = len(data) if length is None else length
        tag = invalid << 31 | kind << 20 | number << 10 | length
        self.data += (tag ^ self.prior).to_bytes(4, "big") + data
        self.prior = tag
        return self

    def close(self, kind=0x500, number=0x3FF, pad=None, fill=0xFF, length=None, wrong=0):
        """An ending tag, the checksum, altered by `wrong`, and padding, where not given up to a multiple of 16."""
        if pad is None:
            pad = -(len(self.data) + 8) % 16
        self.put(kind, number, length=4 + pad if length is None else length)
        total = crc(ALL_ONES, self.data[self.start :]) ^ wrong
        self.data += total.to_bytes(4, "little") + bytes([fill]) * pad
        self.prior = (self.prior & 0x7FFFFFFF) | ((kind & 1) << 31)
        self.start = len(self.data)
        return self

    def copy(self):
        other = Log()
        other.data, other.prior, other.start = bytearray(self.data), self.prior, self.start
        return other

    def block(self, size=None, fill=0xFF):
        """The block of this size, with bytes behind the log."""
        size = len(self.data) + 16 if size is None else size
        return bytes(self.data) + bytes([fill]) * (size - len(self.data))


def card(revision=1):
    """The root of an empty card, section 13.1."""
    return Log(revision).put(0x0FF, 0, b"littlefs").put(0x201, 0, SUPERBLOCK).close()


def vega(log, text=b"2.5"):
    """The tags of a file that is put into the root, section 13.2, without the end of the commit."""
    return log.put(0x401, 1).put(0x001, 1, b"vega").put(0x201, 1, text)


def small(revision=1):
    """A short first commit: one name."""
    return Log(revision).put(0x002, 5, b"sky").close()


# The blocks, subject by subject.


def plain_blocks():
    for size in list(range(17)) + [64, 100]:
        yield b"\xff" * size
        yield bytes(size)
    tiny = Log(7).close(pad=0).block(16)
    for size in range(17):
        yield tiny[:size]


def good_logs():
    yield card().block(512)
    yield vega(card()).close().block()
    yield vega(card()).close().put(0x4FF, 1).close().block()
    yield vega(card()).close().put(0x600, 0x3FF, bytes(8)).close().put(0x7FF, 0x3FF, bytes(12)).close().block()
    for revision in (0, 1, 0x7FFFFFFF, 0x80000000, 0xFFFFFFFE, ALL_ONES):
        yield small(revision).block()
    yield Log().close().block()
    yield Log().close().close().close(kind=0x501).close().block()
    yield small().close().put(0x4FF, 5).close().block()


def commit_ends():
    """Ending tags of all sorts, alone and with a commit behind them."""
    sorts = [dict(pad=pad) for pad in range(18)]
    sorts += [dict(pad=pad, fill=0) for pad in (1, 5, 12)] + [dict(fill=fill) for fill in (0, 0x50, 0xAA)]
    sorts += [dict(kind=0x501), dict(kind=0x501, pad=0), dict(kind=0x501, pad=3, fill=0)]
    sorts += [dict(number=number) for number in (0, 1, 5, 0x1FF, 0x200, 0x3FE)]
    sorts += [dict(kind=0x501, number=0), dict(kind=0x502), dict(kind=0x50F), dict(kind=0x100), dict(kind=0x400)]
    sorts += [dict(pad=4, length=length) for length in range(13)]
    for sort in sorts:
        log = Log().put(0x001, 0, b"a").close(**sort)
        yield log.block()
        yield log.put(0x4FF, 0).close().block()
    # Behind 0x501, with the bit not replaced; behind 0x500, with the bit replaced.
    for kind in (0x500, 0x501):
        log = Log().put(0x001, 0, b"a").close(kind=kind)
        log.prior ^= 0x80000000
        yield log.put(0x4FF, 0).close().block()
    # Erased bytes behind 0x501 decode to a valid tag: with room for its data, and without.
    for size in (64, 128, 1100):
        yield Log().put(0x001, 0, b"a").close(kind=0x501).block(size)


def lengths():
    """Data of every sort of length, up to the end of the block and past it."""
    for length in (0, 1, 2, 3, 15, 16, 17, 63, 64, 65):
        yield Log().put(0x201, 0, bytes(range(length))).close().block()
    for length in (1022, 1023):
        yield Log().put(0x201, 0, bytes(n % 251 for n in range(length))).close().block(2048)
    yield small().put(0x201, 0, length=1023).close().block(1100)
    for size in (64, 256):
        for past in (-1, 0, 1, 2, 400):
            yield Log().put(0x201, 0, length=size - 8 + past).block(size, fill=0)
            yield small().put(0x201, 0, length=size - 32 - 4 + past).block(size, fill=0)
            yield Log().put(0x001, 0, b"a").close(pad=0, length=size - 13 + past).block(size)
            yield small().put(0x4FF, 5).close(pad=0, length=size - 32 - 8 + past).block(size)
    # A commit that ends where the block ends, and a block that is cut before that.
    whole = bytes(vega(card()).close().data)
    for size in range(len(whole) - 16, len(whole) + 1):
        yield whole[:size]


def tag_kinds():
    """Types that end no commit, and are held whatever they are."""
    for kind in list(range(0x502, 0x510)) + [0, 0x003, 0x123, 0x400, 0x4FE, 0x510, 0x5FF, 0x602, 0x700, 0x7FF]:
        yield Log().put(kind, 3, b"held").close().block()
    for number in (0, 1, 0x200, 0x3FE, 0x3FF):
        yield Log().put(0x201, number, b"held").close().block()


def invalid_tags():
    yield Log().put(0x001, 0, b"a", invalid=1).close().block()
    yield Log().put(0x001, 0, b"a").put(0x201, 0, b"b", invalid=1).close().block()
    yield small().put(0x4FF, 5, invalid=1).close().block()
    yield small().put(0x4FF, 5).put(0x4FF, 4, invalid=1).close().block()
    bad_end = small().put(0x4FF, 5)
    bad_end.prior ^= 0x80000000
    yield bad_end.close().block()


def bad_checksums():
    for bit in range(32):
        yield small().put(0x4FF, 5).close(wrong=1 << bit).block(64)
    yield small().put(0x4FF, 5).close(wrong=ALL_ONES).block()
    yield Log().put(0x001, 0, b"a").close(wrong=ALL_ONES).block()
    # The checksum of a first commit covers the revision word, and that of a later one does not.
    for log in (card(), vega(card()).close()):
        for at in range(4):
            yield altered(log.block(), at, 0x01)
    log = small()
    log.start = 0
    yield log.put(0x4FF, 5).close().block()
    log = Log()
    log.start = 4
    yield log.put(0x001, 0, b"a").close().block()


def altered(block, at, mask):
    return block[:at] + bytes([block[at] ^ mask]) + block[at + 1 :]


def torn_logs():
    """The first bytes of a commit with 0xff behind them, at each byte."""
    first = bytes(card().data)
    for cut in range(len(first) + 1):
        yield first[:cut] + b"\xff" * (80 - cut)
    second = bytes(vega(card()).close().data)
    for cut in range(len(first), len(second) + 1):
        yield second[:cut] + b"\xff" * (112 - cut)
    third = bytes(vega(small()).close().put(0x4FF, 1).close().data)
    for cut in range(32, len(third) + 1):
        yield third[:cut] + b"\xff" * (96 - cut)


def flipped_logs():
    """A log with each byte of its last commit altered in its lowest or its highest bit."""
    for log, start in ((small(), 0), (vega(card()).close(), 64)):
        block = log.block()
        for at in range(start, len(log.data)):
            for mask in (0x01, 0x80):
                yield altered(block, at, mask)


def bytes_behind():
    """What stands behind a log and does not belong to it."""
    for fill in (0x00, 0x50, 0xAF, 0x7F):
        yield card().block(fill=fill)
    # An older log, longer than the one that was written over its beginning.
    older = vega(card(3)).close().put(0x4FF, 1).close().block()
    yield bytes(card(5).data) + older[64:]
    yield bytes(small(5).data) + older[32:]
    yield bytes(small(5).data) + older[64:]
    # A good commit at the next unit behind a torn one, XORed as behind the first commit and as behind the torn one.
    whole = vega(card()).close()
    for cut in (1, 4, 9, 16, 20, 24, 31):
        torn = bytes(whole.data[: 64 + cut])
        torn += b"\xff" * (-len(torn) % 16)
        for prior in (card().prior, whole.prior):
            behind = Log()
            behind.data, behind.prior, behind.start = bytearray(torn), prior, len(torn)
            yield behind.put(0x4FF, 0).close().block()
    # The same commit once more, and one that begins a byte too late.
    yield bytes(whole.data) + bytes(whole.data[64:]) + b"\xff" * 16
    yield bytes(card().data) + b"\xff" + bytes(whole.data[64:]) + b"\xff" * 15


def undone(value, data):
    """What the checksum was before these bytes, if it is `value` behind them."""
    for byte in reversed(data):
        for _ in range(8):
            value = ((value ^ 0xEDB88320) << 1 | 1) if value >> 31 else value << 1
        value ^= byte
    return value


def cut_ends():
    """An ending tag that is cut after 2, 3 or 4 bytes and is one nonetheless, with 0xffffffff for its checksum.

    The tag is then as 0xff has made it: another id, or more padding. Four bytes of the file's content are chosen so that
    the checksum fits. A block that ends before the padding does has the first commit only.
    """
    for cut in (2, 3, 4):
        log = vega(card(), bytes(4) + b"abc")
        at = len(log.data)
        ending = bytes(log.copy().close().data[at : at + cut]) + b"\xff" * (4 - cut)
        free = at - 7
        wanted = undone(ALL_ONES, bytes(log.data[free + 4 :]) + ending)
        # Four bytes and the checksum before them are XORed before they are worked in.
        chosen = undone(wanted, bytes(4)) ^ crc(ALL_ONES, log.data[64:free])
        log.data[free : free + 4] = chosen.to_bytes(4, "little")
        assert crc(ALL_ONES, bytes(log.data[64:]) + ending) == ALL_ONES
        cut_tag = bytes(log.data) + ending[:cut]
        for size in (112, 352, 2048):
            block = cut_tag + b"\xff" * (size - len(cut_tag))
            yield block
            yield altered(block, free, 0x01)


class Random:
    """Numbers that look random and are the same everywhere: a xorshift of 64 bits."""

    def __init__(self, seed):
        self.state = seed

    def below(self, limit):
        self.state ^= (self.state << 13) & 0xFFFFFFFFFFFFFFFF
        self.state ^= self.state >> 7
        self.state ^= (self.state << 17) & 0xFFFFFFFFFFFFFFFF
        return (self.state >> 16) % limit

    def pick(self, choices):
        return choices[self.below(len(choices))]

    def bytes(self, count):
        return bytes(self.below(256) for _ in range(count))


KINDS = [0x001, 0x002, 0x0FF, 0x200, 0x201, 0x202, 0x401, 0x4FF, 0x600, 0x601, 0x7FF, 0x502, 0x50F, 0x000, 0x123]


def random_log(random):
    """A good log of one to four commits of any tags, and bytes behind it."""
    log = Log(random.below(1 << 32))
    for _ in range(1 + random.below(4)):
        for _ in range(random.below(4)):
            log.put(random.pick(KINDS), random.below(0x400), random.bytes(random.pick([0, 0, 1, 3, 4, 8, 12])))
        pad = random.pick([None, None, 0, 1, random.below(20)])
        log.close(random.pick([0x500, 0x500, 0x501]), random.pick([0x3FF, 0x3FF, random.below(0x400)]), pad, random.below(256))
    tail = random.pick([b"", b"\xff" * 16, bytes(8), random.bytes(12)])
    return bytes(log.data) + tail


def mutated(random, block):
    """A block with one to three changes."""
    block = bytearray(block)
    for _ in range(1 + random.below(3)):
        at, other = random.below(len(block)), random.below(len(block))
        change = random.below(7)
        if change == 0:
            block[at] ^= 1 << random.below(8)
        elif change == 1:
            block[at] = random.below(256)
        elif change == 2:
            block[at], block[other] = block[other], block[at]
        elif change == 3:
            block[at:] = b"\xff" * (len(block) - at)
        elif change == 4:
            block[at : at + 1] = bytes([block[at], 0xFF])
        elif change == 5 and len(block) > 8:
            del block[at]
        elif len(block) > 8:
            del block[max(at, 8) :]
    return bytes(block)


def random_blocks():
    random = Random(0x6C6974746C656673)
    for _ in range(200):
        yield random.bytes(random.below(96))
    for _ in range(120):
        yield random_log(random)
    for _ in range(300):
        yield mutated(random, random_log(random))


SUBJECTS = [
    plain_blocks,
    good_logs,
    commit_ends,
    lengths,
    tag_kinds,
    invalid_tags,
    bad_checksums,
    torn_logs,
    flipped_logs,
    bytes_behind,
    cut_ends,
    random_blocks,
]

# Lines that are no hex: each is answered by "bad line".
BAD_LINES = ["0", "abc", "zz", "0g", "g0", "0x01", " 00", "00 ", "00\t", "00-11", "empty", "\u00fc\u00fc", "00\r"]


def known_points():
    """Stops where this file does not agree with the examples of docs/FORMAT.md, sections 13 and 14."""
    assert crc(ALL_ONES, b"123456789") == 0x340BC6D9
    assert bytes(card().data) == bytes.fromhex(
        "01000000f00ffff76c6974746c6566732fe00010000002000002000008000000"
        "4000000000001000fe030000701ffc08d2e2641fffffffffffffffffffffffff"
    )
    assert bytes(vega(card()).close().data[64:]) == bytes.fromhex(
        "101ff810400000047665676120000007322e35701ff80a685eabf4ffffffffff"
    )


def made():
    """The two files, as bytes."""
    known_points()
    pairs = [(block.hex(), line_of(block)) for subject in SUBJECTS for block in subject()]
    pairs += [(vega(card()).close().block().hex().upper(), line_of(vega(card()).close().block()))]
    pairs += [(line, "bad line") for line in BAD_LINES]
    return ["".join(line + "\n" for line in lines).encode() for lines in zip(*pairs)]


def main():
    folder = Path(__file__).resolve().parent.parent / "crates" / "log_vectors"
    differs = False
    for name, content in zip(("stdin", "stdout"), made()):
        path = folder / name
        if "--check" not in sys.argv[1:]:
            path.write_bytes(content)
        elif not path.is_file() or path.read_bytes() != content:
            print(f"crates/log_vectors/{name} is not what tools/log_vectors.py makes")
            differs = True
    return 1 if differs else 0


if __name__ == "__main__":
    sys.exit(main())
