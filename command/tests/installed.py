"""What make install puts where, and that it can be used from there."""

import os
import re
import shutil
import subprocess
from pathlib import Path

ROOT = Path(__file__).resolve().parents[2]
PREFIX = "/opt/hplog"
FILES = ["bin/hplog", "include/hplog.h", "lib/libhplog.a", "lib/pkgconfig/hplog.pc"]
FILES += ["share/man/man1/hplog.1", "share/man/man3/hplog.3"]

USER = b"""
#include <hplog.h>
int main(void)
{
    unsigned char panel[HPLOG_PANEL];
    return (int)hplog_label((const unsigned char *)"site", 4, panel, sizeof panel).number;
}
"""


def install(suite):
    library = os.environ.get("HPLOG_LIB", str(ROOT / "target/lib"))
    places = [f"HPLOG_LIB={library}", f"DESTDIR={suite.folder}", f"PREFIX={PREFIX}"]
    made = subprocess.run(["make", "-s", "-C", str(ROOT), "install", *places], capture_output=True)
    suite.holds("make install", made.returncode == 0)
    base = Path(f"{suite.folder}{PREFIX}")
    found = sorted(str(path.relative_to(base)) for path in base.rglob("*") if path.is_file())
    suite.holds("the files installed", found == sorted(FILES), str(found))
    same = (base / "lib/libhplog.a").read_bytes() == Path(library, "libhplog.a").read_bytes()
    suite.holds("the library is the one given", same)
    return base


def output(words, **keywords):
    return subprocess.run(words, capture_output=True, text=True, **keywords).stdout


def used(suite):
    base = install(suite)
    version = output([base / "bin/hplog", "--version"]).split()[1].rstrip(",")
    package = (base / "lib/pkgconfig/hplog.pc").read_text()
    suite.holds("hplog.pc has the command's version", f"\nVersion: {version}\n" in package, package)
    suite.holds("hplog.pc has the prefix", f"prefix={PREFIX}\n" in package, package)
    if shutil.which("pkg-config") is None:
        return
    places = {"PKG_CONFIG_PATH": str(base / "lib/pkgconfig"), "PKG_CONFIG_SYSROOT_DIR": str(suite.folder)}
    flags = output(["pkg-config", "--cflags", "--libs", "hplog"], env={**os.environ, **places}).split()
    program = suite.path("user")
    subprocess.run(["cc", "-x", "c", "-", "-x", "none", *flags, "-o", program], input=USER, check=True)
    suite.holds("a program with the options of hplog.pc runs", subprocess.run([program]).returncode == 0)


def manuals(suite):
    if shutil.which("groff") is None:
        return
    for page in ("hplog.1", "hplog.3"):
        words = ["groff", "-mdoc", "-ww", "-Tutf8", "-P-c", str(ROOT / "man" / page)]
        result = subprocess.run(words, capture_output=True)
        suite.holds(f"{page} has no warnings", result.returncode == 0 and result.stderr == b"", result.stderr.decode())
        suite.holds(f"{page} has text", len(result.stdout) > 1000)


def documented(suite):
    """Every call of the header is in hplog.3, and every command and option of the help is in hplog.1."""
    header, calls = (ROOT / "include/hplog.h").read_text(), (ROOT / "man/hplog.3").read_text()
    names = set(re.findall(r"^hplog_\w+ (hplog_\w+)\(", header, re.MULTILINE))
    suite.holds("the header has 28 calls", len(names) == 28, str(sorted(names)))
    for name in sorted(names):
        suite.holds(f"{name} is in hplog.3", f'.Fn {name} "' in calls)
    manual = (ROOT / "man/hplog.1").read_text()
    lines = suite.run("--help").out.decode().splitlines()
    indented = [line for line in lines if line.startswith("  ") and line[2] != " " and "hplog:" not in line]
    commands = [line.split()[0] for line in indented]
    suite.holds("the help has eight commands", len(commands) == 8, str(commands))
    for command in commands:
        suite.holds(f"{command} is in hplog.1", f".It Cm {command} " in manual)


GROUPS = [used, manuals, documented]
