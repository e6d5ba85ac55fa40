"""Each kind of refusal, with its number, place and words."""

import struct

from logs import AT, BLOCKS, BOOK, D, FOOTER, INDEX, NAMES, PLAINS, ROWS, UNCLOSED, WHOLE, maker, patched


def reframed(count):
    """The sample with another count of blocks in header and index, and as many rows; those past its own are zero."""
    rows = (WHOLE[ROWS:FOOTER] + bytes(28))[: 28 * count]
    tail = b"HPLG_IDX" + struct.pack("<Q", count) + rows + WHOLE[FOOTER:]
    return patched(WHOLE[:INDEX], 18, ("Q", count)) + tail


def header_faults():
    yield WHOLE[:63], 1, 63, "the file ends within its header of 64 bytes, byte 63"
    yield b"", 1, 0, "the file ends within its header of 64 bytes, byte 0"
    yield patched(WHOLE, 0, b"h"), 2, 0, "not an HPLOG file, its mark is wrong, byte 0"
    yield patched(WHOLE, 4, ("H", 2)), 3, 4, "the version is not 1, byte 4"
    yield patched(WHOLE, 6, ("I", 1)), 4, 6, "a reserved field is not zero, byte 6"
    yield patched(WHOLE, 63, b"\1"), 4, 42, "a reserved field is not zero, byte 42"
    for offset in (63, len(WHOLE) + 1, 2**64 - 1):
        yield patched(WHOLE, 10, ("Q", offset)), 6, 10, "the dictionary's offset lies outside the file, byte 10"


def frame_faults():
    yield UNCLOSED, 5, 10, "the file was not closed (hplog recover shows its whole blocks), byte 10"
    yield patched(WHOLE, 18, ("Q", 4097)), 6, 18, "the header counts more than 4,096 blocks, byte 18"
    for size in (0, 2**32 - 1):
        yield patched(WHOLE, D, ("I", size)), 6, D, f"the dictionary is empty or cut, byte {D:,}"
    yield WHOLE[: D + 3], 6, D, f"the dictionary is empty or cut, byte {D:,}"
    end = "index and footer do not end the file where they should"
    yield WHOLE + b"x", 6, len(WHOLE) + 1, f"{end}, byte {len(WHOLE) + 1:,}"
    yield WHOLE[:-1], 6, len(WHOLE) - 1, f"{end}, byte {len(WHOLE) - 1:,}"
    yield patched(WHOLE, INDEX, b"h"), 2, INDEX, f"the index's mark is wrong, byte {INDEX:,}"
    other = "the index counts other blocks than the header"
    yield patched(WHOLE, INDEX + 8, ("Q", 7)), 9, INDEX + 8, f"{other}, byte {INDEX + 8:,}"
    yield patched(WHOLE, FOOTER, b"h"), 2, FOOTER, f"the footer's mark is wrong, byte {FOOTER:,}"
    wrong = "the footer gives a wrong place of the index"
    yield patched(WHOLE, FOOTER + 8, ("Q", 1)), 6, FOOTER + 8, f"{wrong}, byte {FOOTER + 8:,}"
    for at in (FOOTER + 16, FOOTER + 20):
        yield patched(WHOLE, at, b"\1"), 4, at, f"a reserved field is not zero, byte {at:,}"
    yield reframed(7), 6, AT[7], f"the dictionary does not follow the last block, byte {AT[7]:,}"
    yield reframed(9), 6, D, f"the header counts more blocks than there are, byte {D:,}"
    yield patched(WHOLE, 26, ("Q", 1)), 9, 26, "the header's first time is not that of the first block, byte 26"
    yield patched(WHOLE, 34, ("Q", 1)), 9, 34, "the header's last time is not that of the last block, byte 34"


def block_faults():
    for k in (0, 3, 7):
        at, (start, end) = AT[k], BLOCKS[k][:2]
        yield patched(WHOLE, at, ("I", k + 1)), 7, at, f"wrong number in block {k}, byte {at:,}"
        below = f"end below the start in block {k}"
        yield patched(WHOLE, at + 12, ("Q", start - 1)), 7, at + 12, f"{below}, byte {at + 12:,}"
        yield patched(WHOLE, at + 20, ("I", 0)), 7, at + 20, f"no entries in block {k}, byte {at + 20:,}"
        yield patched(WHOLE, at + 24, ("I", 2**32 - 1)), 6, at + 24, f"stored bytes cut in block {k}, byte {at + 24:,}"
        yield patched(WHOLE, AT[k + 1] - 1, b"!"), 8, at + 32, f"checksum differs in block {k}, byte {at + 32:,}"
        for offset in (0, 8, 16, 24):
            row = ROWS + 28 * k + offset
            yield patched(WHOLE, row, b"\x99"), 9, row, f"index differs in block {k}, byte {row:,}"
    before = patched(WHOLE, AT[2] + 4, ("Q", BLOCKS[1][1] - 1))
    yield before, 7, AT[2] + 4, f"start below the end before in block 2, byte {AT[2] + 4:,}"


def opened(suite):
    for content, number, place, text in [*header_faults(), *frame_faults(), *block_faults()]:
        log = suite.path("bad.hplog", content)
        for words in (["check", log], ["query", "--plain", log, "0", "9"], ["cat", log, suite.path("good.plb", BOOK)]):
            suite.refused(words, number, place, log, text)


def recovered(suite):
    for content, number, place, text in header_faults():
        log = suite.path("bad.hplog", content)
        suite.refused(["recover", log], number, place, log, text)
        suite.refused(["repair", log, "/dev/null", suite.path("never")], number, place, log, text)
    suite.holds("no file is written", not (suite.folder / "never").exists())


def stops(suite):
    cases = [(content, number, place, text) for content, number, place, text in block_faults() if number != 9]
    cases += [(UNCLOSED[: AT[4] + 35], 6, AT[4], f"header cut in block 4, byte {AT[4]:,}")]
    for content, number, place, text in cases:
        log = suite.path("stop.hplog", content)
        out = suite.run("recover", "--plain", log).out
        suite.holds(f"recover stops: {text}", out.endswith(f"\nstop {number} {place}\n".encode()), repr(out))
        out = suite.run("recover", log).out
        suite.holds(f"recover says: {text}", f"\nstopped     {text}\n".encode() in out, repr(out))
    many = maker.header(0, 0, 0, 0) + b"".join(maker.block(k, k, k, 1, b"", b"") for k in range(4097))
    log = suite.path("many.hplog", many)
    out = suite.run("recover", log).out
    line = f"stopped     there are more than 4,096 blocks, byte {64 + 36 * 4096:,}\n"
    suite.holds("4,097 blocks", line.encode() in out, repr(out[:200]))
    suite.holds("4,096 rows", len(out.splitlines()) == 3 + 1 + 4096, str(len(out.splitlines())))


def books(suite):
    log = suite.path("good.hplog", WHOLE)
    end = len(BOOK)
    last = end - len(NAMES) - 4
    part = "a part of the plain book is missing, cut or left over"
    mark, version = "not a plain book, its mark is wrong, byte 0", "the plain book's version is not 1, byte 3"
    wrong, sixth = "the plain dictionary is wrong", len(NAMES) - 10
    for content, number, place, text in [
        (b"", 2, 0, mark),
        (patched(BOOK, 2, b"b"), 2, 0, mark),
        (BOOK[:4], 3, 3, version),
        (patched(BOOK, 3, ("H", 2)), 3, 3, version),
        (BOOK[:5], 6, 5, f"{part}, byte 5"),
        (patched(BOOK, 5, ("I", end)), 6, 5, f"{part}, byte 5"),
        (BOOK[:-1], 6, last, f"{part}, byte {last:,}"),
        (BOOK + b"123", 6, end, f"{part}, byte {end:,}"),
        (patched(BOOK, last + 4, ("I", 5)), 10, sixth, f"{wrong}, byte {sixth} of it"),
        (patched(BOOK, last + 12, b"\xff"), 10, 8, f"{wrong}, byte 8 of it"),
    ]:
        book = suite.path("bad.plb", content)
        suite.refused(["cat", log, book], number, place, book, text)
        suite.refused(["read", log, book], number, place, book, text)
        suite.refused(["names", book], number, place, book, text)


def entries(suite):
    log = suite.path("good.hplog", WHOLE)
    for k in (0, 4, 7):
        plain = PLAINS[k]
        for changed, place in [
            (patched(plain, 0, b"\1"), 0),  # the first delta is not 0
            (patched(plain, 2, ("H", 6)), 2),  # no such name
            (patched(plain, 4, b"\7"), 2),  # no such type
            (plain[:-1], len(plain) - 1),  # cut
            (plain + b"\x00\x00", len(plain)),  # a delta that goes back
            (b"", 0),  # no entries
        ]:
            book = suite.path("bad.plb", maker.book([*PLAINS[:k], changed, *PLAINS[k + 1 :]], NAMES))
            text = f"plain entries are wrong in block {k}, byte {place:,} of its plain bytes"
            suite.refused(["cat", log, book], 11, place, book, text)
            suite.refused(["read", log, book], 11, place, book, text)


def disagreeing(suite):
    """Headers with another number of entries or another plain size, which opening cannot see: the first is named."""
    book = suite.path("good.plb", BOOK)
    for field in (20, 28):
        content = patched(patched(WHOLE, AT[6] + field, ("I", 99999)), AT[3] + field, ("I", 99999))
        log, place = suite.path("other.hplog", content), len(PLAINS[3])
        text = f"plain entries are wrong in block 3, byte {place:,} of its plain bytes"
        suite.refused(["cat", log, book], 11, place, book, text)


def falling(suite):
    """A delta that falls in the middle, with the right end, count and size."""
    good, bad = (b"".join(maker.entry(delta, []) for delta in deltas) for deltas in ((0, 3, 9, 20), (0, 9, 3, 20)))
    log = suite.path("falling.hplog", maker.finished([(100, 120, 4, good, b"x"), (120, 140, 4, bad, b"x")], b"x")[0])
    book = suite.path("falling.plb", maker.book([good, bad], maker.names([])))
    suite.refused(["cat", log, book], 11, 4, book, "plain entries are wrong in block 1, byte 4 of its plain bytes")


def texts(suite):
    """Texts beside RFC 3629's table: overlong forms, a surrogate, numbers above 10FFFF; as name, string and JSON."""
    short, long = ["C080", "C1BF", "E09FBF", "EDA080"], ["F08FBFBF", "F4908080", "F5808080"]
    for text in map(bytes.fromhex, short + long):
        book = suite.path("name.plb", maker.book([], struct.pack("<IHH", 1, 0, len(text)) + text))
        suite.refused(["names", book], 10, 8, book, "the plain dictionary is wrong, byte 8 of it")
        for kind in (0, 5):
            plain = struct.pack("<BBHBB", 0, 1, 0, kind, len(text)) + text
            log = suite.path("text.hplog", maker.finished([(100, 100, 1, plain, b"x")], b"x")[0])
            book = suite.path("text.plb", maker.book([plain], maker.names(["a"])))
            words = "plain entries are wrong in block 0, byte 2 of its plain bytes"
            suite.refused(["cat", log, book], 11, 2, book, words)


GROUPS = [opened, recovered, stops, books, entries, disagreeing, falling, texts]
