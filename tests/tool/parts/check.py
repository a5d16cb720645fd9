"""Runs the program and counts what was checked."""
import os
import re
import subprocess

OK, NO_BOARD, USAGE, DOUBTFUL, FILE = range(5)


class Ran:
    def __init__(self, done):
        self.status, self.out, self.err = done.returncode, done.stdout or b"", done.stderr or b""


class Checks:
    def __init__(self, program, folder, expected, write, sanitized):
        self.program, self.folder, self.expected, self.write, self.sanitized = program, folder, expected, write, sanitized
        self.done, self.failed, self.stored = 0, 0, set()

    def check(self, name, good, *shown):
        self.done += 1
        if not good:
            self.failed += 1
            print(f"FAILED {name}:", *shown)

    def equal(self, name, is_so, to_be):
        self.check(name, is_so == to_be, f"is {is_so!r}, to be {to_be!r}")

    def run(self, *words, **more):
        """Runs it in the folder of the pictures; no run may make a sanitizer speak, or take long."""
        more = {"stdin": subprocess.DEVNULL, "stdout": subprocess.PIPE, "stderr": subprocess.PIPE, **more}
        if "input" in more:
            del more["stdin"]
        ran = Ran(subprocess.run([self.program, *words], cwd=self.folder, timeout=120, **more))
        if ran.status < 0 or b"Sanitizer" in ran.err or b"runtime error" in ran.err:
            self.check(f"a sound run of {words}", False, ran.status, ran.err.decode(errors="replace"))
        return ran

    def ends(self, name, ran, status, lines=0):
        """Its status, and how many lines it said."""
        self.equal(f"{name}: status", ran.status, status)
        said = ran.err.splitlines()
        self.check(f"{name}: {lines} lines said", len(said) == lines, ran.err)
        self.check(f"{name}: the program is named", all(line.startswith(b"folgutan: ") for line in said), ran.err)

    def prints(self, name, ran, masked=False):
        """It printed what is stored under this name; masked, whatever the doubts."""
        file, out = os.path.join(self.expected, name), ran.out
        if masked:
            out = re.sub(rb"(?m)^status .*\nreasons .*$", b"status ...\nreasons ...", out)
            out = re.sub(rb'"status":".*?","reasons":\[.*?\]', b'"status":"...","reasons":[...]', out)
        self.stored.add(name)
        if self.write:
            with open(file, "wb") as to:
                to.write(out)
        with open(file, "rb") as stored:
            self.equal(f"stored {name}", out, stored.read())

    def make(self, name, content):
        with open(os.path.join(os.fsencode(self.folder), os.fsencode(name)), "wb") as out:
            out.write(content)

    def content(self, name):
        with open(os.path.join(self.folder, name), "rb") as file:
            return file.read()

    def has(self, name):
        return os.path.lexists(os.path.join(self.folder, name))
