"""Colours and progress on a terminal."""

import os
import re
import signal
import subprocess
import time

from harness import stop_within
from logs import BOOK, D, WHOLE, patched, write_long_text, write_zeros

HALF_SECOND = 0.5
CLEARED = b"\r\033[K"


def shows(text, what):
    """Whether the text starts with the progress of something."""
    return re.match(rb"\rhplog: %s, \d+ s" % what, text) is not None


def colours(suite):
    log, book = suite.path("colour.hplog", WHOLE), suite.path("colour.plb", BOOK)
    bad = suite.path("colour.bad", patched(WHOLE, 0, b"x"))
    plain = suite.run("check", log).out
    status, text = suite.terminal("check", log)
    suite.holds("headings are bold on a terminal", status == 0 and b"\033[1mblock  offset" in text, repr(text))
    suite.holds("and nothing else changes", text.replace(b"\033[1m", b"").replace(b"\033[0m", b"") == plain, repr(text))
    for env in ({"NO_COLOR": "1"}, {"TERM": "dumb"}):
        suite.holds(f"no colours with {env}", suite.terminal("check", log, env=env) == (0, plain))
    status, text = suite.terminal("check", bad)
    is_red = text.split(b": ")[1] == b"\033[1;31mrefused 2 0\033[0m"
    suite.holds("a refusal is red on a terminal", status == 1 and is_red, repr(text))
    suite.holds("--plain has no colours", b"\033" not in suite.terminal("check", "--plain", log)[1])
    suite.holds("a listing has no colours", suite.terminal("cat", log, book) == (0, suite.run("cat", log, book).out))


def calling(suite):
    """A call that takes longer than half a second, whatever the machine: the command is halted in it."""
    slow = suite.path("slow.hplog")
    write_zeros(slow, 3, 1 << 30)
    process, terminal = suite.start_on_terminal("recover", "--plain", slow)
    stop_within(process, 64 << 20)
    time.sleep(2 * HALF_SECOND)
    process.send_signal(signal.SIGCONT)
    text = terminal.rest()
    suite.holds("progress on a terminal", process.wait() == 0 and shows(text, b"recovering"), repr(text))
    suite.holds("which is removed", CLEARED + f"file {os.path.getsize(slow)} 3 ".encode() in text, repr(text))
    process, terminal = suite.start_on_terminal("recover", slow)
    stop_within(process, 64 << 20)
    time.sleep(2 * HALF_SECOND)
    os.truncate(slow, 4096)
    process.send_signal(signal.SIGCONT)
    text = terminal.rest()
    line = CLEARED + b"hplog: a file became shorter, or its disk failed, while it was in use\n"
    is_removed = shows(text, b"recovering") and text.endswith(line)
    ended = process.wait() == 2 and is_removed
    suite.holds("also before the message of a file that becomes shorter", ended, repr(text))


def reading(suite):
    """A pipe that is opened, and filled, only once progress is seen."""
    plain = suite.run("check", "--plain", "-", stdin=WHOLE).out
    pipe = suite.path("pipe")
    os.mkfifo(pipe)
    for before, shown in ((0, b"reading"), (D, b"reading, 0 MiB")):
        begin = time.monotonic()
        process, terminal = suite.start_on_terminal("check", "--plain", pipe)
        if before > 0:
            writer = open(pipe, "wb", buffering=0)
            writer.write(WHOLE[:before])
        text = terminal.until(b" s")
        suite.holds("not before half a second", time.monotonic() - begin >= HALF_SECOND)
        if before == 0:
            writer = open(pipe, "wb", buffering=0)
        writer.write(WHOLE[before:])
        writer.close()
        text += terminal.rest()
        suite.holds("progress of reading a pipe", shows(text, shown), repr(text))
        is_removed = text.endswith(CLEARED + plain)
        suite.holds("which is removed before the output", process.wait() == 0 and is_removed, repr(text))


def silent(suite):
    """No progress where standard error is no terminal."""
    process = suite.start("check", "-", stdin=subprocess.PIPE)
    time.sleep(2 * HALF_SECOND)
    out, err = process.communicate(WHOLE)
    suite.holds("no progress where there is no terminal", (process.returncode, err) == (0, b""), repr(err))


def printing(suite):
    """A listing of eight GiB, or half of it, that goes elsewhere and is ended once progress is seen."""
    log, book = suite.path("long.hplog"), suite.path("long.plb")
    write_long_text(log, book, 1 << 30)
    for words in (["cat", log, book], ["read", log, book, "--from", "1001"]):
        process, terminal = suite.start_on_terminal(*words, stdout=subprocess.DEVNULL)
        text = terminal.until(b" MiB, ") + terminal.until(b" s")
        is_shown = re.search(rb"\rhplog: listing, \d+ MiB, \d+ s", text) is not None
        suite.holds(f"progress of {words[0]}", is_shown, repr(text))
        process.send_signal(signal.SIGINT)
        is_removed = terminal.rest().endswith(CLEARED)
        suite.holds("which is removed by an interrupt", is_removed and process.wait() == -signal.SIGINT)
    process, terminal = suite.start_on_terminal("cat", log, book)
    text, begin = terminal.until(b"blocks "), time.monotonic()
    while time.monotonic() - begin < 2 * HALF_SECOND:
        text += terminal.piece(HALF_SECOND)
    process.kill()
    terminal.rest()
    is_shown = b"hplog" in text[text.index(b"blocks ") :]
    suite.holds("but not beside a listing on the terminal", not is_shown and process.wait() == -signal.SIGKILL)


def waiting(suite):
    """Nothing is shown while a listing waits for its reader: a pager may have the terminal."""
    log, book = suite.path("waiting.hplog"), suite.path("waiting.plb")
    write_long_text(log, book, 1 << 20)
    process, terminal = suite.start_on_terminal("cat", log, book, stdout=subprocess.PIPE)
    front = process.stdout.read(1)
    time.sleep(2 * HALF_SECOND)
    suite.holds("no progress while nobody reads", terminal.now() == b"")
    is_whole = front + process.stdout.read() == suite.run("cat", log, book).out
    suite.holds("the listing is whole", is_whole and process.wait() == 0)
    terminal.rest()


def typed(suite):
    """A log is not read from a terminal."""
    process, terminal = suite.start_on_terminal("check", "-", stdin=None)
    text = terminal.rest()
    ended = process.wait(), text
    suite.holds("nothing is read from a terminal", ended == (2, b"hplog: standard input: is a terminal\n"), repr(ended))


GROUPS = [colours, calling, reading, silent, printing, waiting, typed]
