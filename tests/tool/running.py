"""Runs the program that is tested, counts checks, and says which fail."""
import os
import subprocess
import sys
import tempfile

count = 0
failures = []


def check(right, *what):
    global count
    count += 1
    if not right:
        failures.append(" ".join(str(w) for w in what))
        print("wrong:", *what, file=sys.stderr)


# A child counts the memory of the process that started it as its own, so one that is measured is started by a process that has little.
# It writes what the child took to its first word.
MEASURE = """import os, sys
child = os.fork()
if child == 0:
    os.execv(sys.argv[2], sys.argv[2:])
_, status, used = os.wait4(child, 0)
with open(sys.argv[1], "w") as file:
    file.write("%f %f" % (used.ru_utime + used.ru_stime, used.ru_maxrss / 1024))
sys.exit(os.waitstatus_to_exitcode(status) & 255)
"""


class Ran:
    """What a run did: its status, how much it wrote (None where that goes nowhere), its output where that is kept, its lines on standard
    error; where it is measured, seconds of processor time and the most memory in MB."""

    def __init__(self, words, given=b"", endless=b"", user=None, keep=True, measured=False, nowhere=False):
        with tempfile.TemporaryFile() as out, tempfile.TemporaryFile() as err, tempfile.NamedTemporaryFile("r") as took:
            if measured:
                words = [sys.executable, "-I", "-S", "-c", MEASURE, took.name, *words]
            child = subprocess.Popen(words, stdin=subprocess.PIPE, stdout=subprocess.DEVNULL if nowhere else out, stderr=err, user=user)
            self.written = feed(child.stdin, given, endless)
            self.status = child.wait(60)
            if measured:
                self.seconds, self.memory = (float(n) for n in took.read().split())
            self.wrote = None if nowhere else os.fstat(out.fileno()).st_size
            out.seek(0)
            err.seek(0)
            self.out = out.read() if keep else b""
            self.lines = err.read().decode("utf-8", "replace").split("\n")[:-1]  # those that are ended


def feed(to, given, endless):
    """Writes what is given, then the block `endless` again and again until nobody reads any more, or too much was read. Answers how much
    was taken."""
    written = 0
    try:
        written += to.write(given)
        while endless and written < 1 << 30:
            written += to.write(endless)
        to.close()
    except BrokenPipeError:
        try:
            to.close()
        except BrokenPipeError:
            pass
    return written
