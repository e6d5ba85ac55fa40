"""Large files, files that change, and files that may not be read or written."""

import ctypes
import os
import resource
import signal
import struct
import time

from harness import stop_within
from logs import UNCLOSED, WHOLE, close_zeros, maker, write_long_text, write_zeros

GIB = 1 << 30

# A file of a GiB of holes is answered from its front, and blocks outside a range are not listed; either would take
# longer.
QUICK = 5


def timed(suite, words, status, out, err):
    start = time.monotonic()
    suite.expect(words, status, out, err)
    taken = time.monotonic() - start
    suite.holds(f"{words[0]} of a GiB answers quickly", taken < QUICK, f"{taken:.1f} s")


def sparse(suite):
    zeros = suite.path("zeros.hplog")
    with open(zeros, "wb") as file:
        file.truncate(GIB)
    mark = f"hplog: refused 2 0: {zeros}: not an HPLOG file, its mark is wrong, byte 0\n".encode()
    timed(suite, ["check", zeros], 1, b"", mark)
    timed(suite, ["recover", zeros], 1, b"", mark)
    with open(zeros, "r+b") as file:
        file.write(maker.header(0, 0, 0, 0))
    timed(suite, ["recover", "--plain", zeros], 0, f"file {GIB} 0 64 0\nstop 7 84\n".encode(), b"")
    words = "the file was not closed (hplog recover shows its whole blocks), byte 10"
    timed(suite, ["check", zeros], 1, b"", f"hplog: refused 5 10: {zeros}: {words}\n".encode())


def skipped(suite):
    """A range of times is read without listing the blocks around it, whose text is of two GiB each."""
    log, book = suite.path("long.hplog"), suite.path("long.plb")
    write_long_text(log, book, 512 << 20, [maker.entry(0, [("site", f"B{k}")]) for k in range(3)])
    timed(suite, ["read", log, book, "--from", "1002", "--to", "1003"], 0, b'1002 site=s:"B1"\n1003 site=s:"B2"\n', b"")
    timed(suite, ["read", log, book, "--from", "1006"], 0, b"", b"")


def memory(suite):
    """With little memory a file can neither be mapped nor be read, which is an error of the system."""
    zeros = suite.path("memory.hplog")
    with open(zeros, "wb") as file:
        file.truncate(GIB)

    def limit():
        resource.setrlimit(resource.RLIMIT_AS, (64 << 20, 64 << 20))

    suite.expect(["check", zeros], 2, err=f"hplog: {zeros}: Cannot allocate memory\n".encode(), preexec_fn=limit)


def shortened(suite):
    """A file that becomes shorter under the command ends it with a message."""
    slow = suite.path("slow.hplog")
    write_zeros(slow, 3, GIB)
    process = suite.start("recover", slow)
    while process.poll() is None:
        with open(f"/proc/{process.pid}/maps") as maps:
            if "slow.hplog" in maps.read():
                break
    process.send_signal(signal.SIGSTOP)
    os.truncate(slow, 4096)
    process.send_signal(signal.SIGCONT)
    out, err = process.communicate()
    answer = (process.returncode, out, err)
    line = b"hplog: a file became shorter, or its disk failed, while it was in use\n"
    suite.holds("a file that becomes shorter", answer == (2, b"", line), repr(answer))


def changed(suite):
    """An index that is changed once its first row has been checked: what is wrong with the rows then is no answer."""
    log = suite.path("changed.hplog")
    write_zeros(log, 3, GIB)
    rows = close_zeros(log, 3, GIB)
    process = suite.start("query", "--plain", log, "0", "9")
    stop_within(process, GIB + (64 << 20))
    with open(log, "r+b") as file:
        file.seek(rows + 8)  # the end of the first block, which is then above the start of the second
        file.write(struct.pack("<Q", 5))
    process.send_signal(signal.SIGCONT)
    out, err = process.communicate()
    answer = (process.returncode, out, err)
    line = f"hplog: refused 7 1: {log}: its rows are out of order from row 1 on\n".encode()
    suite.holds("an index that is changed", answer == (1, b"", line), repr(answer))


def without_override():
    """Takes from root what lets it read and write everything; others have it not."""
    prctl, drop_from_bounding_set, dac_override, dac_read_search = ctypes.CDLL(None).prctl, 24, 1, 2
    prctl(drop_from_bounding_set, dac_override, 0, 0, 0)
    prctl(drop_from_bounding_set, dac_read_search, 0, 0, 0)


def forbidden(suite):
    """Files that may not be read, and folders that may not be written."""
    log, good, locked = suite.path("closed.hplog", WHOLE), suite.path("cut.hplog", UNCLOSED), suite.folder / "locked"
    os.chmod(log, 0)
    locked.mkdir(0o500)
    line = f"hplog: {log}: Permission denied\n".encode()
    commands = [["check", log], ["query", log, "0", "1"], ["recover", log], ["cat", good, log], ["names", log]]
    for words in [*commands, ["repair", good, log, "new"]]:
        suite.expect(words, 2, err=line, preexec_fn=without_override, cwd=suite.folder)
    line = f"hplog: {locked}/new: Permission denied\n".encode()
    suite.expect(["repair", good, good, str(locked / "new")], 2, err=line, preexec_fn=without_override)
    names = sorted(os.listdir(suite.folder)), os.listdir(locked)
    suite.holds("nothing is written", names == (["closed.hplog", "cut.hplog", "locked"], []), str(names))


GROUPS = [sparse, skipped, memory, shortened, changed, forbidden]
