"""Repair: what it writes, and what it leaves alone."""

import os
import resource
import signal
import subprocess
import time

from logs import AT, BLOCKS, D, DICTIONARY, UNCLOSED, WHOLE, maker, patched, write_zeros

SPARSE = 256 << 20


def place(suite, name):
    folder = suite.folder / name
    folder.mkdir()
    return folder


def contents(folder):
    return {path.name: path.read_bytes() for path in folder.iterdir()}


def written(suite):
    folder = place(suite, "written")
    cut = suite.path("cut.hplog", UNCLOSED[: AT[5] + 100])
    dictionary = suite.path("dictionary", DICTIONARY)
    expected = maker.finished(BLOCKS[:5], DICTIONARY)[0]
    out = str(folder / "a")
    suite.expect(["repair", cut, dictionary, out], out=f"{out}: written, {len(expected):,} bytes, 5 blocks\n".encode())
    plain = f"file {len(expected)} 5\n".encode()
    suite.expect(["repair", "--plain", "-", dictionary, "b"], out=plain, stdin=UNCLOSED[: AT[5] + 100], cwd=folder)
    suite.expect(["repair", "--plain", cut, "-", "c"], out=plain, stdin=DICTIONARY, cwd=folder)
    suite.holds("each is the finished file", contents(folder) == {name: expected for name in "abc"})
    suite.holds("the damaged file is as it was", (suite.folder / "cut.hplog").read_bytes() == UNCLOSED[: AT[5] + 100])
    lost = suite.path("lost.hplog", WHOLE[:-1])
    suite.expect(["repair", "--plain", lost, "/dev/null", str(folder / "d")], out=f"file {len(WHOLE)} 8\n".encode())
    suite.holds("the file's own dictionary is used", (folder / "d").read_bytes() == WHOLE)
    os.chmod(cut, 0o640)
    suite.run("repair", cut, dictionary, str(folder / "e"))
    umask = os.umask(0o022)
    os.umask(umask)
    suite.holds("permissions are those of the file", os.stat(folder / "e").st_mode & 0o777 == 0o640 & ~umask)


def refusals(suite):
    folder = place(suite, "refused")
    old = folder / "old"
    old.write_bytes(b"old")
    cut = suite.path("cut.hplog", UNCLOSED[: AT[5] + 100])
    bad = suite.path("bad.hplog", patched(WHOLE, AT[3] + 40, b"\xee"))
    count = suite.path("count.hplog", patched(WHOLE, 18, ("Q", 7)))
    for out in (str(folder / "new"), str(old)):
        text = f"no dictionary is given and the file has none that is whole, byte {AT[5]:,}"
        suite.refused(["repair", "--force", cut, "/dev/null", out], 16, AT[5], cut, text)
        text = f"checksum differs in block 3, byte {AT[3] + 32:,}"
        suite.refused(["repair", "-f", bad, "/dev/null", out], 8, AT[3] + 32, bad, text)
        text = "the header's block count is wrong, byte 18"
        suite.refused(["repair", "-f", count, "/dev/null", out], 9, 18, count, text)
    long = suite.path("long.dictionary")
    with open(long, "wb") as file:
        file.truncate(1 << 32)
    text = "the dictionary is longer than 32 bits count, 4,294,967,296 bytes"
    suite.refused(["repair", "-f", cut, long, str(old)], 6, 1 << 32, long, text)
    suite.holds("a refusal leaves the folder as it was", contents(folder) == {"old": b"old"})


def existing(suite):
    folder = place(suite, "existing")
    damaged = UNCLOSED[: AT[5] + 100]
    for name, content in (("cut", damaged), ("dictionary", DICTIONARY), ("old", b"old")):
        (folder / name).write_bytes(content)
    os.link(folder / "cut", folder / "linked")
    (folder / "sub").mkdir()
    os.symlink("cut", folder / "symbolic")
    os.symlink("nowhere", folder / "dangling")

    def fails(out, words, *options, **keywords):
        command = ["repair", *options, "cut", "dictionary", out]
        suite.expect(command, 2, err=f"hplog: {out}: {words}\n".encode(), cwd=folder, **keywords)

    fails("old", "exists (--force replaces it)")
    for options in ([], ["--force"]):
        for out in ("cut", "linked", "symbolic", "dictionary", "./sub/../cut"):
            fails(out, "is one of the files to be read", *options)
        fails("sub", "exists and is not a regular file", *options)
        fails("dangling", "exists and is not a regular file", *options)
        fails("missing/new", "No such file or directory", *options)
        fails("old/new", "Not a directory", *options)
        fails("missing/", "No such file or directory", *options)
        fails("sub/", "Is a directory", *options)
        fails("/", "Is a directory", *options)
    with open(folder / "cut", "rb") as file:
        words = ["repair", "--force", "-", "dictionary", "cut"]
        suite.expect(words, 2, err=b"hplog: cut: is one of the files to be read\n", cwd=folder, stdin=file)
    names = {"cut", "dictionary", "old", "linked", "sub", "symbolic", "dangling"}
    suite.holds("nothing is left behind", set(os.listdir(folder)) == names, str(os.listdir(folder)))
    kept = [(folder / name).read_bytes() for name in ("cut", "dictionary", "old")]
    suite.holds("all files are as they were", kept == [damaged, DICTIONARY, b"old"])
    suite.expect(["repair", "--plain", "--force", "cut", "dictionary", "old"], out=b"file 1820 5\n", cwd=folder)
    suite.holds("--force replaces", (folder / "old").read_bytes() == maker.finished(BLOCKS[:5], DICTIONARY)[0])
    suite.holds("and leaves no other file", set(os.listdir(folder)) == names, str(os.listdir(folder)))


def no_room(suite):
    folder = place(suite, "room")
    cut = suite.path("cut.hplog", UNCLOSED[:D])

    def limit():
        resource.setrlimit(resource.RLIMIT_FSIZE, (1000, 1000))

    words = ["repair", cut, suite.path("dictionary", DICTIONARY), str(folder / "new")]
    suite.expect(words, 2, err=f"hplog: {folder}/new: File too large\n".encode(), preexec_fn=limit)
    suite.holds("nothing is left where there is no room", os.listdir(folder) == [])


def is_made(process, folder):
    """Whether the command has a file open in the folder, with a name or without."""
    try:
        entries = [f"/proc/{process.pid}/fd/{number}" for number in os.listdir(f"/proc/{process.pid}/fd")]
        return any(os.readlink(entry).startswith(f"{folder}/") for entry in entries)
    except OSError:
        return False  # the command has ended, or closed a file meanwhile


def disturbed(suite, folder, big, disturb, **keywords):
    """Repairs a large file and disturbs the command once its new file is there; again where the command was done before
    that."""
    words = ["repair", big, suite.path("dictionary", DICTIONARY), str(folder / "new")]
    for _ in range(5):
        write_zeros(big, 1, SPARSE)
        process = suite.start(*words, **keywords)
        while not is_made(process, folder) and process.poll() is None:
            time.sleep(0.001)
        disturb(process)
        _, err = process.communicate()
        if process.returncode != 0:
            break
        os.remove(folder / "new")
    os.remove(big)
    return process.returncode, err


def ended_by(suite, folder, signals, **keywords):
    for number in signals:

        def end(process, number=number):
            process.send_signal(number)

        ended = disturbed(suite, folder, suite.path("big.hplog"), end, **keywords)
        suite.holds(f"{number.name} ends the command", ended == (-number, b""), repr(ended))
        suite.holds(f"{number.name} leaves nothing", os.listdir(folder) == [], str(os.listdir(folder)))


def has_unnamed(folder):
    """Whether the file system has files without a name, which go away whatever ends the command."""
    try:
        os.close(os.open(folder, os.O_TMPFILE | os.O_RDWR))
    except OSError:
        return False
    return True


def interrupted(suite):
    folder = place(suite, "interrupted")
    ended_by(suite, folder, [signal.SIGINT, signal.SIGKILL] if has_unnamed(folder) else [signal.SIGINT])
    big = suite.path("big.hplog")
    ended = disturbed(suite, folder, big, lambda process: os.truncate(big, 100))
    line = b"hplog: a file became shorter, or its disk failed, while it was in use\n"
    suite.holds("a damaged file that becomes shorter", ended == (2, line), repr(ended))
    suite.holds("leaves nothing", os.listdir(folder) == [], str(os.listdir(folder)))


# Makes a file system of one that has files without a name that has none.
NO_UNNAMED = b"""
#define _GNU_SOURCE
#include <dlfcn.h>
#include <errno.h>
#include <fcntl.h>
#include <sys/types.h>
int openat(int folder, const char *path, int flags, ...)
{
    int (*next)(int, const char *, int, mode_t) = (int (*)(int, const char *, int, mode_t))dlsym(RTLD_NEXT, "openat");
    if ((flags & O_TMPFILE) == O_TMPFILE) {
        errno = EOPNOTSUPP;
        return -1;
    }
    return next(folder, path, flags, 0644);
}
"""


def named(suite):
    """The new file has a temporary name where the file system has no files without one; each signal that can be handled
    removes it."""
    folder, shim = place(suite, "named"), suite.path("shim.so")
    subprocess.run(["cc", "-shared", "-fPIC", "-x", "c", "-", "-o", shim, "-ldl"], input=NO_UNNAMED, check=True)
    env = {"LD_PRELOAD": shim}
    ended_by(suite, folder, [signal.SIGINT, signal.SIGTERM, signal.SIGHUP, signal.SIGQUIT], env=env)
    cut, dictionary = suite.path("cut.hplog", UNCLOSED[: AT[5] + 100]), suite.path("dictionary", DICTIONARY)
    suite.expect(["repair", "--plain", cut, dictionary, "new"], out=b"file 1820 5\n", cwd=folder, env=env)
    expected = maker.finished(BLOCKS[:5], DICTIONARY)[0]
    suite.holds("the finished file stands alone", contents(folder) == {"new": expected})


def closed_streams(suite):
    """The new file never takes the number of a standard stream that was closed: a message would be written into it."""
    folder = place(suite, "closed")
    links = []

    def close_all():
        for number in range(3):
            os.close(number)

    def look(process):
        if process.poll() is None:
            links[:] = [os.path.realpath(f"/proc/{process.pid}/fd/{number}") for number in range(3)]
        process.terminate()

    ended = disturbed(suite, folder, suite.path("big.hplog"), look, preexec_fn=close_all)
    suite.holds("the command was looked at while it ran", ended[0] == -signal.SIGTERM, repr(ended))
    suite.holds("the standard streams are no files", links == ["/dev/null"] * 3, str(links))


GROUPS = [written, refusals, existing, no_room, interrupted, named, closed_streams]
