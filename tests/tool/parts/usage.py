"""The command line: every option, and words that are wrong."""
import pathlib
import re

from .check import DOUBTFUL, FILE, OK, USAGE

ROOT = pathlib.Path(__file__).resolve().parent.parent.parent.parent
OPTIONS = ("--box --expect --factor --shrink --size --overlay --text --json --csv --map --quiet --help --version").split()
VALUED = OPTIONS[:6]

WRONG_VALUES = {
    "--box": "10x10 10x10+1 x10+1+1 10x+1+1 10x10+1+ 0x10+0+0 10x0+0+0 -1x10+0+0 10x10+-1+0 10x10-1+0 10X10+0+0 10x10+0+0+0 "
             "10x10+0+0x +10x10+0+0 1000001x10+0+0 10x10+1000001+0 99999999999999999999x10+0+0 18446744073709551626x10+0+0 1e1x10+0+0 "
             "0x10x10+0+0 10.0x10+0+0",
    "--expect": "16 16x x16 0x16 16x0 16x16x16 4097x16 16x4097 -1x16 16X16 16*16 +16x16 99999999999999999999x1 auto",
    "--factor": "1 6 0 -3 +3 3.0 3x Auto AUTO autos 33 18446744073709551619 0x3",
    "--shrink": "0 65 -1 +1 1.5 2x 18446744073709551617 four",
    "--size": "0 25 -1 +1 1.5 2x 18446744073709551617 one",
}
WRONG_WORDS = ["--bogus", "-x", "-h", "-", "--jso", "--jsonn", "--JSON", "---", "--=", "-1", "--box-", "--text=1", "--json=", "--csv=yes",
               "--map=on", "--quiet=1", "--help=all", "--version=2"]


def says(c, name, ran, *named):
    c.ends(name, ran, USAGE, 1)
    c.equal(f"{name}: prints nothing", ran.out, b"")
    for word in (*named, "see folgutan --help"):
        c.check(f"{name}: names {word}", word.encode() in ran.err, ran.err)


def wrong_words(c):
    for option, values in WRONG_VALUES.items():
        for value in values.split():
            says(c, f"{option} {value}", c.run(option, value, "first.screen"), value, option)
            says(c, f"{option}={value}", c.run("first.screen", f"{option}={value}"), value, option)
        for value in (" 3", "3 ", "3\n", "3\t", "٣"):
            c.equal(f"{option} {value!r}", c.run(option, value, "first.screen").status, USAGE)
    for word in WRONG_WORDS:
        if word != "-":
            says(c, word, c.run(word, "first.screen"), word)
    for option in VALUED:
        says(c, f"{option} at the end", c.run("first.screen", option), option)
        says(c, f"{option} of nothing", c.run("first.screen", option, ""), f"folgutan: {option}: ")
        says(c, f"{option}= of nothing", c.run("first.screen", option + "="), f"folgutan: {option}=: ")
    says(c, "no words", c.run(), "no picture")
    says(c, "options alone", c.run("--json", "--"), "no picture")
    says(c, "standard input twice", c.run("-", "first.screen", "-"), ": -: ")
    says(c, "an overlay of two", c.run("--overlay", "two.png", "first.screen", "drawn.png"), "two.png", "--overlay")
    says(c, "an overlay to standard output", c.run("--overlay", "-", "first.screen"), "--overlay")
    c.check("an overlay of two is not written", not c.has("two.png"))
    says(c, "what cannot be printed", c.run("--bad\x1b[31m\n\xff"), "--bad?[31m?")


def one_line(text):
    return len(text.splitlines()) == 1


def right_words(c):
    plain = c.run("--json", "first.screen").out
    c.check("a reading", plain.startswith(b'{"file":"first.screen"') and one_line(plain), plain)
    for words in (["first.screen", "--json"], ["--json", "--", "first.screen"], ["--text", "--csv", "--json", "first.screen"],
                  ["--factor", "5", "--json", "--factor=3", "first.screen"], ["--size=24", "first.screen", "--size", "1", "--json"],
                  ["--size=001", "--json", "first.screen"], ["--box", "1x1+0+0", "--box=162x132+0+0", "--json", "first.screen"],
                  ["--expect=9x9", "--expect=9x11", "--json", "first.screen"], ["--shrink=2", "--shrink=1", "--json", "first.screen"],
                  ["--quiet", "--quiet", "--json", "first.screen"], ["--factor=auto", "--json", "first.screen"]):
        ran = c.run(*words)
        c.check(f"reads as without: {words}", ran.status == OK and ran.out == plain, ran.status, ran.out, ran.err)
    for factor in "2345":
        ran = c.run("--json", "--factor", factor, "first.screen")
        c.equal(f"factor {factor}", ran.out, plain.replace(b'"factor":3', b'"factor":' + factor.encode()))
    for format in ("--text", "--csv", "--map", "--json"):
        c.equal(f"the last of --json {format}", c.run("--json", format, "first.screen").out, c.run(format, "first.screen").out)
    c.equal("no format is --text", c.run("first.screen").out, c.run("--text", "first.screen").out)
    c.make("--json", c.content("first.screen"))
    c.equal("behind --, an option is a picture", c.run("--json", "--", "--json").out, plain.replace(b"first.screen", b"--json"))
    c.ends("behind --, a second -- is a picture", c.run("--", "--"), FILE, 1)
    c.equal("an expected size that is not so", c.run("--expect", "5x4", "first.screen").status, DOUBTFUL)


def help_and_version(c):
    shown = c.run("--help")
    c.ends("--help", shown, OK)
    page = (ROOT / "tool" / "folgutan.1").read_text().replace("\\-", "-")
    for option in OPTIONS:
        c.check(f"--help has {option}", f"{option} " in shown.out.decode() or f"{option}," in shown.out.decode())
        c.check(f"the manual page has {option}", option in page)
    c.equal("--help: lines of more than 80", [line for line in shown.out.decode().splitlines() if len(line) > 80], [])
    version = re.search(r'FOLGUTAN_VERSION "(.*)"', (ROOT / "tool" / "version.h").read_text())[1]
    for words in (["--version"], ["--version", "--bogus"], ["first.screen", "--version", "--help"]):
        ran = c.run(*words)
        c.ends(f"{words}", ran, OK)
        c.equal(f"{words}: prints", ran.out.decode(), f"folgutan {version}\n")
    c.equal("--help comes first", c.run("--help", "--version", "--bogus", "no such file").out, shown.out)
    c.ends("a wrong word comes first", c.run("--bogus", "--help"), USAGE, 1)


def run(c):
    wrong_words(c)
    right_words(c)
    help_and_version(c)
