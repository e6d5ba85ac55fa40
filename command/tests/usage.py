"""Help, versions, wrong usage, and times."""

import re

from logs import BLOCKS, WHOLE, maker, plain_lines

COMMANDS = {"check": 1, "query": 3, "recover": 1, "repair": 3, "cat": 2, "read": 2, "names": 1, "label": 1}


def helps(suite):
    every = suite.expect(["--help"], out=re.compile(rb"usage: hplog COMMAND .*", re.DOTALL)).out
    suite.expect(["-h"], out=every)
    suite.expect(["--version"], out=re.compile(rb"hplog \d+\.\d+\.\d+, HPLOG format version 1\n"))
    suite.expect([], 2, err=every)
    for name in COMMANDS:
        suite.holds(f"help names {name}", re.search(rf"^  {name} ".encode(), every, re.MULTILINE) is not None)
        usage = re.compile(rb"usage: hplog %s .*--plain .*" % name.encode(), re.DOTALL)
        text = suite.expect([name, "--help"], out=usage).out
        suite.expect([name, "-h", "more", "than", "it", "takes"], out=text)
        every += text
    suite.holds("help fits a terminal of 80 columns", max(map(len, every.splitlines())) <= 80)


def wrong_usage(suite):
    log = suite.path("usage.hplog", WHOLE)
    suite.expect(["frob"], 2, err=b"hplog: no such command: 'frob' (see hplog --help)\n")
    suite.expect(["fr\x1b[31m"], 2, err=b"hplog: no such command: 'fr\\x1B[31m' (see hplog --help)\n")
    for name, count in COMMANDS.items():
        see = f"(see hplog {name} --help)"
        suite.expect([name, *["1"] * (count - 1)], 2, err=f"hplog {name}: too few arguments {see}\n".encode())
        suite.expect([name, "--frob", log], 2, err=f"hplog {name}: no such option: '--frob' {see}\n".encode())
        if name != "names":
            suite.wrong([name, *["1"] * (count + 1)])
    for name in ("--plain", "-x"):
        suite.expect([name, "check", log], 2, err=f"hplog: no such option: '{name}' (see hplog --help)\n".encode())
    for name in ("--from", "--to"):
        line = f"hplog read: no time after the option '{name}' (see hplog read --help)\n"
        suite.expect(["read", log, log, name], 2, err=line.encode())
        suite.wrong(["read", log, log, f"{name}="])
        suite.wrong(["read", log, log, f"{name}s", "1"])
    suite.expect(["check", ""], 2, err=b"hplog: '': No such file or directory\n")
    suite.wrong(["check", "--force", log])
    suite.wrong(["check", "--from", "0", log])
    suite.wrong(["cat", "-", "-"])
    suite.wrong(["names", "-", "-"])
    suite.wrong(["repair", log, "/dev/null", "-"])


def times(suite):
    log = suite.path("times.hplog", WHOLE)
    first, last = BLOCKS[0][0], BLOCKS[0][1]
    suite.expect(["query", "--plain", log, str(first), str(last)], out=plain_lines([0]))
    suite.expect(["query", "--plain", log, "0", str(first - 1)])
    suite.expect(["query", "--plain", log, "2020-01-01T00:00:00Z", "2020-01-01T00:00:30Z"], out=plain_lines([0, 1]))
    between = ["2020-01-01T00:00:25.000025025Z", "2020-01-01T00:00:29.999999999Z"]
    suite.expect(["query", "--plain", log, *between], out=plain_lines([0]))
    suite.expect(["query", "--plain", log, "2020-01-01T00:00:25.000025026Z", "2020-01-01T00:00:29.9Z"])
    suite.expect(["query", "--plain", log, "0", "2554-07-21T23:34:33.709551615Z"], out=plain_lines(range(len(BLOCKS))))
    suite.expect(["query", "--plain", log, "0", "18446744073709551615"], out=plain_lines(range(len(BLOCKS))))
    bad = ["18446744073709551616", "2554-07-21T23:34:33.709551616Z", "2554-07-21T23:34:34Z", "9999-12-31T23:59:59Z"]
    bad += ["1969-12-31T23:59:59Z", "2020-01-01", "2020-01-01T00:00:00", "2020-01-01T00:00:00+00:00"]
    bad += ["2020-1-01T00:00:00Z", "2020-01-01T00:00:00.Z"]
    bad += ["2020-01-01T00:00:00.1234567890Z", "2020-01-01T24:00:00Z", "2020-01-01T00:60:00Z", "2020-01-01T00:00:60Z"]
    bad += ["2020-00-01T00:00:00Z", "2020-13-01T00:00:00Z", "2020-01-00T00:00:00Z", "2020-02-30T00:00:00Z"]
    bad += ["2021-02-29T00:00:00Z", "2100-02-29T00:00:00Z", "2020-01-01T00:00:00Z "]
    bad += [" 1", "+1", "-1", "", "1.5", "0x10", "1e9", "now"]
    for text in bad:
        words = ["query", "--", log, text, "18446744073709551615"]
        line = f"hplog query: not a time that fits 64-bit nanoseconds: '{text}' (see hplog query --help)\n"
        suite.expect(words, 2, err=line.encode())


def calendar(suite):
    """Dates of many days, both ways: each is the start of a block, and is shown and found again."""
    from datetime import datetime, timedelta, timezone

    epoch = datetime(1970, 1, 1, tzinfo=timezone.utc)
    days = [0, 58, 59, 60, 364, 365, 789, 790, 11015, 11016, 11017, 47540, 47541, 47542, 157113, 157114, 157115, 213502]
    days += range(20000, 21500, 53)
    dates = [(epoch + timedelta(days=day)).strftime("%Y-%m-%dT23:59:59.000000001Z") for day in sorted(days)]
    starts = [day * 86_400_000_000_000 + 86_399_000_000_001 for day in sorted(days)]
    log = suite.path("calendar.hplog", maker.finished([(start, start, 1, b"\0\0", b"x") for start in starts], b"x")[0])
    shown = suite.expect(["check", log], out=re.compile(rb".*", re.DOTALL)).out.decode().splitlines()[-len(dates) :]
    suite.holds("dates shown", [line.split()[5] for line in shown] == dates, str(shown))
    for number, date in enumerate(dates):
        found = suite.run("query", "--plain", log, date, date).out.decode().split()[1:2]
        suite.holds(f"date {date} found", found == [str(number)], str(found))


GROUPS = [helps, wrong_usage, times, calendar]
