"""Standard input, and an output that takes nothing."""
import os
import resource
import subprocess

from .check import FILE, NO_BOARD, OK, USAGE

FORMATS = ("--text", "--json", "--csv", "--map")


def input_(c):
    screen, drawn = c.content("first.screen"), c.content("drawn.png")
    for name, content in (("first.screen", screen), ("drawn.png", drawn)):
        ran = c.run("--json", "-", input=content)
        c.ends(f"{name} by standard input", ran, OK)
        c.equal(f"{name} by standard input", ran.out, c.run("--json", name).out.replace(name.encode(), b"-"))
    ran = c.run("--csv", "first.screen", "-", "drawn.png", input=drawn)
    c.equal("standard input among others", ran.status, OK)
    c.equal("standard input among others: lines", [ran.out.count(b"\n-,"), ran.out.count(b"\n")], [90, 1 + 99 + 90 + 90])
    c.make("-", screen)
    c.ends("a file of the name -", c.run("./-"), OK)
    c.ends("an empty input", c.run("-"), FILE, 1)
    c.ends("a closed input", c.run("-", stdin=None, preexec_fn=lambda: os.close(0)), FILE, 1)
    c.ends("a closed input that is not read", c.run("first.screen", stdin=None, preexec_fn=lambda: os.close(0)), OK)


def full(c):
    """/dev/full takes no byte."""
    for words in (*([format, "first.screen"] for format in FORMATS), ["--csv", "wide.png"], ["--csv", "blank.png"], ["--help"],
                  ["--version"]):
        with open("/dev/full", "wb") as out:
            ran = c.run(*words, stdout=out)
        c.equal(f"a full output: status of {words}", ran.status, FILE)
        lines = [line for line in ran.err.splitlines() if b"standard output" in line]
        c.check(f"a full output: said once, {words}", len(lines) == 1 and b"No space left" in lines[0], ran.err)
    with open(os.path.join(c.folder, "limited.csv"), "wb") as out:
        ran = c.run("--csv", "first.screen", stdout=out, preexec_fn=lambda: resource.setrlimit(resource.RLIMIT_FSIZE, (500, 500)))
    c.ends("an output that may not be so long", ran, FILE, 1)
    c.check("an output that may not be so long: why", b"File too large" in ran.err, ran.err)
    with open("/dev/full", "wb") as out:
        c.equal("a full output, nothing to print", c.run("--map", "blank.png", stdout=out).status, NO_BOARD)
        c.equal("a full output, a wrong word", c.run("--bogus", stdout=out).status, USAGE)
        ran = c.run("first.screen", "missing.png", "drawn.png", stdout=out)
        c.ends("a full output ends the run", ran, FILE, 1)


def closed(c):
    for words in ([], ["--overlay", "closed.png"]):
        ran = c.run("first.screen", *words, stdout=None, preexec_fn=lambda: os.close(1))
        c.ends(f"a closed output, {words}", ran, FILE, 1)
        c.check(f"a closed output, {words}: named", b"standard output" in ran.err, ran.err)
    c.equal("all are closed", c.run("first.screen", stdin=None, stdout=None, stderr=None, preexec_fn=lambda: os.closerange(0, 3)).status,
            FILE)
    c.equal("the picture is as it was", c.run("--json", "first.screen").status, OK)
    ran = c.run("blank.png", stderr=None, preexec_fn=lambda: os.close(2))
    c.equal("closed for messages: status", ran.status, NO_BOARD)
    c.check("closed for messages: printed", ran.out.startswith(b"file blank.png\n"), ran.out)
    read, write = os.pipe()
    os.close(read)
    ran = c.run("first.screen", stdout=write)
    os.close(write)
    c.ends("a reader that went away", ran, FILE, 1)


def slow(c):
    """A reader that takes few bytes at a time gets all of them."""
    whole = c.run("--csv", "wide.png", "wide.png", "wide.png").out
    with subprocess.Popen([c.program, "--csv", "wide.png", "wide.png", "wide.png"], cwd=c.folder, stdout=subprocess.PIPE, bufsize=0) as ran:
        got = bytearray()
        while part := ran.stdout.read(777):
            got += part
    c.check("more than a pipe holds", len(whole) > 1 << 17, len(whole))
    c.check("a slow reader", bytes(got) == whole, len(got), len(whole))


def limited(to):
    return lambda: resource.setrlimit(resource.RLIMIT_AS, (to, to))


def memory(c):
    """With less and less memory there is one line and status 4, and what is printed is printed as a whole."""
    words = ("--json", "--overlay", "memory.png", "wide.png")
    whole, step, least = c.run(*words), 1 << 18, 1 << 22
    while c.run("--version", preexec_fn=limited(least)).status != OK:
        least += step
    failed, at = 0, least
    while (ran := c.run(*words, preexec_fn=limited(at))).status != OK:
        failed += 1
        c.check(f"no memory above {at}", ran.status == FILE and b"emory" in ran.err and ran.err.count(b"\n") == 1
                and ran.out in (b"", whole.out), ran.status, ran.out, ran.err)
        at += step
    c.check("too little memory for several steps", failed > 8, failed)
    c.equal("enough memory", [ran.out, ran.err], [whole.out, whole.err])


def run(c):
    input_(c)
    full(c)
    closed(c)
    slow(c)
    if not c.sanitized:
        memory(c)
