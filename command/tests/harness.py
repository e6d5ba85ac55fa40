"""Runs the command as a user would, and compares what it does."""

import os
import pty
import re
import select
import signal
import subprocess
import sys
import time
from dataclasses import dataclass, field
from pathlib import Path

# A command that has to answer quickly is ended after so many seconds, which is a failure.
LIMIT = 120


@dataclass
class Result:
    status: int
    out: bytes
    err: bytes


# Bytes that no command writes on a terminal.
NEVER = b"\0"

# Standard input is no terminal unless a test asks for it.
ON_TERMINAL = {"stdin": subprocess.DEVNULL, "stdout": None, "stderr": None}


@dataclass
class Terminal:
    """The other end of a terminal that a command runs on."""

    master: int

    def piece(self, seconds):
        """What comes next; empty where nothing does in so many seconds, or ever again."""
        try:
            return os.read(self.master, 4096) if select.select([self.master], [], [], seconds)[0] else b""
        except OSError:
            return b""  # a terminal whose last writer has gone answers with an error

    def now(self):
        return self.piece(0)

    def until(self, wanted):
        """All up to the piece with the bytes wanted, or to the end."""
        text, limit = b"", time.monotonic() + LIMIT
        while wanted not in text and (piece := self.piece(max(0, limit - time.monotonic()))):
            text += piece
        return text

    def rest(self):
        """All up to the end, with lines as the command wrote them."""
        text = self.until(NEVER)
        os.close(self.master)
        return text.replace(b"\r\n", b"\n")


def held(process):
    """How many bytes of memory the command has."""
    with open(f"/proc/{process.pid}/statm") as pages:
        return int(pages.read().split()[1]) * os.sysconf("SC_PAGE_SIZE")


def stop_within(process, resident):
    """Stops the command in the midst of a file, once it holds so many bytes in memory."""
    while process.poll() is None and held(process) < resident:
        time.sleep(0.001)
    process.send_signal(signal.SIGSTOP)


@dataclass
class Suite:
    command: list  # the words that start the command
    folder: Path  # an empty folder to work in
    passed: int = 0
    failures: list = field(default_factory=list)

    def path(self, name, content=None):
        """A path in the folder, with this content where it is given."""
        path = self.folder / name
        if content is not None:
            path.write_bytes(content)
        return str(path)

    def start(self, *words, **keywords):
        environment = {**os.environ, "LC_ALL": "C", **keywords.pop("env", {})}
        streams = {"stdout": subprocess.PIPE, "stderr": subprocess.PIPE}
        return subprocess.Popen([*self.command, *words], **streams, env=environment, **keywords)

    def run(self, *words, stdin=b"", **keywords):
        source, sent = (subprocess.PIPE, stdin) if isinstance(stdin, bytes) else (stdin, None)
        process = self.start(*words, stdin=source, **keywords)
        out, err = process.communicate(sent, timeout=LIMIT)
        return Result(process.returncode, out, err)

    def run_to(self, out, *words):
        """Runs the command with its standard output sent elsewhere; gives status and standard error back."""
        environment = {**os.environ, "LC_ALL": "C"}
        streams = {"stdin": subprocess.DEVNULL, "stdout": out, "stderr": subprocess.PIPE}
        process = subprocess.run([*self.command, *words], **streams, env=environment, timeout=LIMIT)
        return process.returncode, process.stderr

    def holds(self, what, condition, shown=""):
        if condition:
            self.passed += 1
        else:
            self.failures.append(what)
            print(f"FAILED  {what}  {shown}", file=sys.stderr)

    def expect(self, words, status=0, out=b"", err=b"", **keywords):
        """Runs the command; out and err are the exact bytes, or a compiled pattern that matches them whole."""
        result = self.run(*words, **keywords)
        what = "hplog " + " ".join(words)
        self.holds(f"{what}: status", result.status == status, f"{result.status}, not {status}: {result.err!r}")
        for name, got, wanted in (("out", result.out, out), ("err", result.err, err)):
            if isinstance(wanted, re.Pattern):
                shown = f"{got!r} is not like {wanted.pattern!r}"
                self.holds(f"{what}: {name}", wanted.fullmatch(got) is not None, shown)
            else:
                self.holds(f"{what}: {name}", got == wanted, f"{got!r}, not {wanted!r}")
        return result

    def refused(self, words, number, place, name, text, **keywords):
        """Expects a refusal: status 1, nothing on standard output, one line on standard error."""
        line = f"hplog: refused {number} {place}: {name}: {text}\n"
        return self.expect(words, 1, b"", line.encode(), **keywords)

    def wrong(self, words, **keywords):
        """Expects status 2, nothing on standard output and one line on standard error."""
        return self.expect(words, 2, b"", re.compile(rb"hplog[^\n]*\n"), **keywords)

    def start_on_terminal(self, *words, env=None, **streams):
        """Starts the command with the streams that are not given on a terminal; gives process and terminal back."""
        master, slave = pty.openpty()
        environment = {**os.environ, "TERM": "xterm", "LC_ALL": "C", **(env or {})}
        streams = {name: slave if stream is None else stream for name, stream in {**ON_TERMINAL, **streams}.items()}
        process = subprocess.Popen([*self.command, *words], **streams, env=environment)
        os.close(slave)
        return process, Terminal(master)

    def terminal(self, *words, env=None):
        """Runs the command on a terminal; gives the status and all that it wrote there."""
        process, terminal = self.start_on_terminal(*words, env=env)
        text = terminal.rest()
        return process.wait(LIMIT), text
