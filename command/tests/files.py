"""Each command on good files, in both forms of output and from each kind of input."""

import itertools
import os
import re
import signal
import threading

from logs import AT, BLOCKS, BOOK, D, DICTIONARY, INDEX, NAMES, SAMPLES, UNCLOSED, WHOLE
from logs import entry_lines, maker, plain_lines, write_long_text

# A log without blocks.
EMPTY = maker.header(64, 0, 0, 0) + WHOLE[D:INDEX] + b"HPLG_IDX" + bytes(8) + b"HPLG_END" + bytes([134]) + bytes(15)

HEADINGS = "block  offset  stored  plain  entries  start                           end\n"


def date(seconds, fraction):
    return f"2020-01-01T00:{seconds // 60:02}:{seconds % 60:02}.{fraction:09}Z"


def table(numbers):
    lines = HEADINGS
    for number in numbers:
        _, _, entries, plain, stored = BLOCKS[number]
        times = f"{date(30 * number, 0)}  {date(30 * number + 25, 25025)}"
        lines += f"{number:5}  {AT[number]:6,}  {len(stored):6,}  {len(plain):5,}  {entries:7}  {times}\n"
    return lines


def samples(suite):
    made = suite.folder / "samples"
    made.mkdir()
    maker.FOLDER = made
    maker.main()
    for path in sorted(made.iterdir()):
        same = (SAMPLES / path.name).read_bytes() == path.read_bytes()
        suite.holds(f"samples/{path.name} is what samples/make writes", same)
    listing = b'blocks 1 entries 2\n1000 wet=i:-42\n1005 site=s:"B7" wet=n\n'
    suite.expect(["cat", str(SAMPLES / "small.hplog"), str(SAMPLES / "small.plb")], out=listing)


def checks(suite):
    log = suite.path("check.hplog", WHOLE)
    plain = f"file {len(WHOLE)} {len(BLOCKS)} {BLOCKS[0][0]} {BLOCKS[-1][1]} {D} {len(DICTIONARY)} {INDEX}\n"
    suite.expect(["check", "--plain", log], out=plain.encode() + plain_lines(range(8)))
    text = f"{log}: whole, {len(WHOLE):,} bytes, 8 blocks\n"
    text += f"first time  {date(0, 0)}\nlast time   {date(235, 25025)}\n"
    text += f"dictionary  byte {D:,}, stored {len(DICTIONARY)}\nindex       byte {INDEX:,}\n"
    suite.expect(["check", log], out=(text + table(range(8))).encode())
    empty = suite.path("none.hplog", EMPTY)
    suite.expect(["check", "--plain", empty], out=b"file 174 0 0 0 64 66 134\n")
    text = f"{empty}: whole, 174 bytes, 0 blocks\ndictionary  byte 64, stored 66\nindex       byte 134\n"
    suite.expect(["check", empty], out=text.encode())


def queries(suite):
    log = suite.path("query.hplog", WHOLE)
    times = [date(31, 0), date(60, 0)]
    suite.expect(["query", "--plain", log, *times], out=plain_lines([1, 2]))
    suite.expect(["query", log, *times], out=f"{log}: 2 of 8 blocks\n{table([1, 2])}".encode())
    suite.expect(["query", log, "0", "1"], out=f"{log}: 0 of 8 blocks\n".encode())
    suite.refused(["query", log, "2", "1"], 13, 2, "times", "the first time is above the second")


def recoveries(suite):
    cut = suite.path("cut.hplog", UNCLOSED[: AT[5] + 100])
    plain = f"file {AT[5] + 100} 5 {AT[5]} 0\n".encode() + plain_lines(range(5)) + f"stop 6 {AT[5] + 24}\n".encode()
    suite.expect(["recover", "--plain", cut], out=plain)
    text = f"{cut}: 5 whole blocks up to byte {AT[5]:,} of {AT[5] + 100:,}\ndictionary  none that is whole\n"
    text += f"stopped     stored bytes cut in block 5, byte {AT[5] + 24:,}\n"
    suite.expect(["recover", cut], out=(text + table(range(5))).encode())
    whole = suite.path("whole.hplog", WHOLE)
    text = f"{whole}: 8 whole blocks up to byte {D:,} of {len(WHOLE):,}\ndictionary  whole\n"
    text += "stopped     at the end of the blocks\n"
    suite.expect(["recover", whole], out=(text + table(range(8))).encode())
    for length in range(AT[1], AT[2] + 1, 7):
        cut = suite.path("cut.hplog", UNCLOSED[:length])
        blocks = 2 if length == AT[2] else 1
        out = suite.expect(["recover", "--plain", cut], out=re.compile(rb"file .*\n(block .*\n)+stop .*\n")).out
        suite.holds(f"cut at {length}", out.count(b"block ") == blocks, repr(out))


def listings(suite):
    log, book = suite.path("list.hplog", WHOLE), suite.path("list.plb", BOOK)
    lines = entry_lines()
    whole = f"blocks 8 entries {len(lines)}\n" + "".join(line for _, line in lines)
    suite.expect(["cat", log, book], out=whole.encode())
    suite.expect(["cat", "--plain", log, book], out=whole.encode())
    suite.expect(["read", log, book], out="".join(line for _, line in lines).encode())
    times = sorted({time + step for time, _ in lines[::5] for step in (-1, 0, 1)})
    for t1, t2 in zip(times, times[4:]):
        kept = "".join(line for time, line in lines if t1 <= time <= t2)
        suite.expect(["read", log, book, "--from", str(t1), f"--to={t2}"], out=kept.encode())
    last = BLOCKS[7][0] + 20 * maker.SECOND
    kept = "".join(line for time, line in lines if time >= last)
    suite.expect(["read", "--from", date(230, 0), log, book], out=kept.encode())
    suite.refused(["read", log, book, "--from", "9", "--to", "8"], 13, 9, "times", "the first time is above the second")


def borders(suite):
    """Blocks that meet in a time, one of a single time, and a gap; each range of times is what cat lists of it."""
    deltas = [(0, 4), (0,), (0, 0, 3), (0, 5)]
    starts = [100, 104, 104, 110]
    plains, lines, blocks = [], [], []
    for number, (start, block) in enumerate(zip(starts, deltas)):
        plains.append(b"".join(maker.entry(delta, [("wind", number)]) for delta in block))
        lines += [(start + delta, f"{start + delta} wind=i:{number}\n") for delta in block]
        blocks.append((start, start + block[-1], len(block), plains[number], b"z"))
    log = suite.path("borders.hplog", maker.finished(blocks, b"z")[0])
    book = suite.path("borders.plb", maker.book(plains, NAMES))
    times = [99, 100, 103, 104, 105, 107, 108, 110, 115, 116]
    for t1, t2 in itertools.combinations_with_replacement(times, 2):
        kept = "".join(line for time, line in lines if t1 <= time <= t2)
        suite.expect(["read", log, book, "--from", str(t1), "--to", str(t2)], out=kept.encode())
    none = suite.path("none.hplog", EMPTY)
    suite.expect(["read", none, suite.path("none.plb", maker.book([], NAMES))])


def last_times(suite):
    """Entries up to the last time that 64 bits hold, which is also where a range ends that names no end."""
    last = 2**64 - 1
    plain = b"".join(maker.entry(delta, []) for delta in (0, 4, 5, 5))
    log = suite.path("last.hplog", maker.finished([(last - 5, last, 4, plain, b"z")], b"z")[0])
    book = suite.path("last.plb", maker.book([plain], NAMES))
    for options, times in (
        ([], (last - 5, last - 1, last, last)),
        (["--from", str(last)], (last, last)),
        (["--from", str(last - 1), "--to", str(last)], (last - 1, last, last)),
        (["--to", str(last - 1)], (last - 5, last - 1)),
        (["--from", str(last - 4), "--to", str(last - 2)], ()),
    ):
        suite.expect(["read", log, book, *options], out="".join(f"{time}\n" for time in times).encode())


def long_lines(suite):
    """Lines that are longer than any buffer, and times that pieces of the listing may divide."""
    text = "x\\\"\n" * 60_000
    plain = maker.entry(0, [("note", text)]) + maker.entry(3, [])
    plain += b"".join(maker.entry(5 + k, [("wind", k)]) for k in range(20_000))
    end = 10**18 + 5 + 19_999
    log = suite.path("long.hplog", maker.finished([(10**18, end, 20_002, plain, b"z")], b"z")[0])
    book = suite.path("long.plb", maker.book([plain], maker.names(maker.NAMES)))
    first = f'{10**18} note=s:"' + "x\\x5C\\x22\\x0A" * 60_000 + '"\n'
    rest = [f"{10**18 + 3}\n"] + [f"{10**18 + 5 + k} wind=i:{k}\n" for k in range(20_000)]
    suite.expect(["cat", log, book], out=f"blocks 1 entries 20002\n{first}{''.join(rest)}".encode())
    suite.expect(["read", log, book, "--from", "0", "--to", str(10**18)], out=first.encode())
    suite.expect(["read", log, book, "--from", str(10**18 + 1)], out="".join(rest).encode())
    suite.expect(["read", log, book, "--from", str(end)], out=rest[-1].encode())


def names(suite):
    book = suite.path("names.plb", BOOK)
    rows = "".join(f"{number:5}  {name}\n" for number, name in enumerate(maker.NAMES))
    suite.expect(["names", book], out=f"{book}: 6 names\n{rows}".encode())
    plain = f"book 6 {book}\n" + "".join(f"name {number} {name}\n" for number, name in enumerate(maker.NAMES))
    suite.expect(["names", "--plain", book, book], out=(plain * 2).encode())
    odd = suite.path("odd.plb", maker.book([b"any"], maker.names(["", "a b=\"\\", "h\u00f6he\x1b\x07", "\u009b"])))
    lines = ["name 0 ", "name 1 a\\x20b\\x3D\\x22\\x5C", "name 2 h\\xC3\\xB6he\\x1B\\x07", "name 3 \\xC2\\x9B", ""]
    suite.expect(["names", "--plain", odd], out="\n".join([f"book 4 {odd}", *lines]).encode())
    shown = f"{odd}: 4 names\n    0  \n    1  a b=\"\\x5C\n    2  h\u00f6he\\x1B\\x07\n    3  \\xC2\\x9B\n"
    suite.expect(["names", odd], out=shown.encode())
    alone = suite.path("alone.plb", maker.book([], maker.names(["site"])))
    suite.expect(["names", "--plain", alone], out=f"book 1 {alone}\nname 0 site\n".encode())
    missing = suite.path("missing.plb")
    line = f"hplog: {missing}: No such file or directory\n".encode()
    suite.expect(["names", "--plain", missing, book], 2, out=plain.encode(), err=line)


def labels(suite):
    suite.expect(["label", "site"], out=b"|site            |\n")
    suite.expect(["label", "--plain", "site"], out=b"site            \nshortened 0\n")
    suite.expect(["label", ""], out=b"|                |\n")
    suite.expect(["label", "--", "--plain"], out=b"|--plain         |\n")
    suite.expect(["label", "abcdefghijklmnop"], out=b"|abcdefghijklmnop|\n")
    suite.expect(["label", "abcdefghijklmnopq"], out=b"|abcdefgh~klmnopq| shortened\n")
    suite.expect(["label", "--plain", "abcdefghijklmnopq"], out=b"abcdefgh~klmnopq\nshortened 1\n")
    suite.expect(["label", "SN-2026-0007-ABCDEFGHIJKLMNOPQ"], out=b"|SN-2026-~KLMNOPQ| shortened\n")
    suite.expect(["label", "xxxxxxxxxxxxxxx~"], out=b"|xxxxxxxxxxxxxxx~|\n")
    suite.expect(["label", "--plain", "xxxxxxxxxxxxxxx~"], out=b"xxxxxxxxxxxxxxx~\nshortened 0\n")
    hidden = "abcdefghi\u00e9lmnopqrstuv"
    suite.refused(["label", hidden], 15, 9, hidden, "byte 9 of the name is not printable")
    suite.refused(["label", "ab\x1bd"], 15, 2, "ab\\x1Bd", "byte 2 of the name is not printable")


def pipe_of(content):
    """The reading end of a pipe that is filled meanwhile."""
    reader, writer = os.pipe()

    def fill():
        with os.fdopen(writer, "wb") as file:
            file.write(content)

    threading.Thread(target=fill).start()
    return reader


def inputs(suite):
    log, book = suite.path("in.hplog", WHOLE), suite.path("in.plb", BOOK)
    listing = suite.run("cat", log, book).out
    suite.expect(["cat", "-", book], out=listing, stdin=WHOLE)
    suite.expect(["cat", log, "-"], out=listing, stdin=BOOK)
    suite.expect(["cat", "/dev/stdin", book], out=listing, stdin=WHOLE)
    reader = pipe_of(BOOK)
    suite.expect(["cat", "-", f"/dev/fd/{reader}"], out=listing, stdin=WHOLE, pass_fds=[reader])
    os.close(reader)
    with open(log, "rb") as file:
        suite.expect(["cat", "-", book], out=listing, stdin=file)
    shifted = suite.path("shifted", b"12345" + WHOLE)
    with open(shifted, "rb", buffering=0) as file:
        file.read(5)
        suite.expect(["cat", "-", book], out=listing, stdin=file)
    suite.refused(["check", "-"], 1, 0, "standard input", "the file ends within its header of 64 bytes, byte 0")
    suite.expect(["check", str(suite.folder)], 2, err=f"hplog: {suite.folder}: Is a directory\n".encode())
    missing = suite.path("no\nsuch")
    suite.expect(["check", missing], 2, err=f"hplog: {suite.folder}/no\\x0Asuch: No such file or directory\n".encode())
    suite.wrong(["cat", log, missing])
    suite.wrong(["query", missing, "0", "1"])
    with open("/dev/full", "wb") as full:
        process = suite.run_to(full, "cat", log, book)
        line = b"hplog: standard output: No space left on device\n"
        suite.holds("a full device", process == (2, line), repr(process))


def closed_pipe(suite):
    """A reader that goes away ends the command by the signal that says so, or, where that is ignored, by an error."""
    log, book = suite.path("pipe.hplog"), suite.path("pipe.plb")
    write_long_text(log, book, 1 << 20)
    for ignore, wanted in ((False, (-signal.SIGPIPE, b"")), (True, (2, b"hplog: standard output: Broken pipe\n"))):
        handler = (lambda: signal.signal(signal.SIGPIPE, signal.SIG_IGN)) if ignore else None
        process = suite.start("cat", log, book, preexec_fn=handler)
        front = process.stdout.read(8)
        process.stdout.close()
        ended = process.wait(), process.stderr.read()
        suite.holds("a pipe that is closed", (front, ended) == (b"blocks 2", wanted), repr(ended))


def closed_streams(suite):
    """A stream that is closed is an error where it is needed, and no file takes its place."""
    log = suite.path("closed.hplog", WHOLE)
    for words, number, name in ((["check", log], 1, b"output"), (["check", "-"], 0, b"input")):
        line = b"hplog: standard %s: Bad file descriptor\n" % name
        suite.expect(words, 2, err=line, preexec_fn=lambda number=number: os.close(number))
    out = suite.path("closed.out")
    suite.expect(["repair", log, "/dev/null", out], 2, preexec_fn=lambda: [os.close(number) for number in range(3)])
    suite.holds("the file has no message in it", (suite.folder / "closed.out").read_bytes() == WHOLE)


GROUPS = [samples, checks, queries, recoveries, listings, borders, last_times, long_lines, names, labels, inputs]
GROUPS += [closed_pipe, closed_streams]
