#!/usr/bin/env python3
"""What `keep_roster` prints and leaves in its file, whatever stops it and however many run.

The roster is that of roster_calls.py, the sentences are those of docs/FIELDS.md, which lines
are a pair is as in explain_cases.py, and dates are the standard library's.

  keep_roster.py --program ROSTER EXPECTED
      writes the roster that keep_roster is run on, and its listing.
  keep_roster.py --run PROGRAM
      runs it: as it is; with its input, its output and its file failing; killed at, and
      with an error from, each of its system calls (strace); with a file that may not grow
      past a size; and many at once. The last line is 'N passed, M failed'.
"""

import argparse
import os
import resource
import signal
import shutil
import subprocess
import sys
import tempfile
from datetime import datetime, timedelta
from pathlib import Path

sys.dont_write_bytecode = True
from explain_cases import explained, lines_of, walk
from report_texts import REFUSED, joined
from roster_calls import EMPTY, catalogue, held, instant, lodged, pair, packed, row_of, spelt, withdrawn

NO_ROSTER = "refusal 22: the file is no roster.\n"
LOCKED = " is there: another is at work on this file, or one was stopped at work; where none is, remove it\n"
USAGE = "keep_roster FILE lodge, keep_roster FILE withdraw NUMBER, or keep_roster FILE list\n"

# ------------------------------------------------------------------ what is told


def listed(buffer):
    pairs = held(buffer)
    if pairs is None:
        return NO_ROSTER
    out = []
    for place in sorted(pairs, key=lambda p: (instant(p), catalogue(p))):
        date = datetime(1957, 1, 1) + timedelta(microseconds=instant(place))
        out.append(f"{catalogue(place)} {date:%Y-%m-%d %H:%M:%S.%f} {place[9:17].decode().strip() or '-'}\n")
    return "".join(out)


def told(text, buffer):
    """Each buffer on the way and what is printed when it is reached; the last line is by itself."""
    steps, pairs, accepted, printed = [], 0, 0, ""
    for step in walk(text):
        if isinstance(step, tuple):
            first, second, one, two = step
            answer, new, _ = lodged(buffer, row_of(held(buffer) or []), one, two)
            sentence = {
                "ok": f"lodged satellite {catalogue(one) if answer == 'ok' else 0}.\n",
                "refused 19": f"refusal 19: all 64 places hold other satellites than {number(one)}.\n",
                "refused 20": f"refusal 20: the roster has a pair of satellite {number(one)} whose epoch is later.\n",
                "refused 22": NO_ROSTER,
            }.get(answer) or explained(one, two)
            printed += f"lines {first} and {second}: {sentence}"
            pairs, accepted = pairs + 1, accepted + (answer == "ok")
            if new != buffer:
                steps.append((new, printed))
                buffer = new
        else:
            printed += step
    return steps, printed + f"lines {len(lines_of(text))}, pairs {pairs}, lodged {accepted}\n"


def number(one):
    return catalogue(one) if one[2:7].strip() else 0


# ------------------------------------------------------------------ runs

class Test:
    def __init__(self, program, room):
        self.program = str(Path(program).resolve())
        self.room = Path(room)
        self.file = self.room / "roster"
        self.passed = self.failed = 0

    def result(self, name, good, more=""):
        self.passed += good
        self.failed += not good
        if not good:
            print(f"keep_roster, {name}: FAILED {more}")

    def load(self, buffer):
        """The folder with this file in it, or without one."""
        for path in self.room.iterdir():
            path.unlink()
        if buffer is not None:
            self.file.write_bytes(buffer)

    def left(self):
        return self.file.read_bytes() if self.file.exists() else None

    def beside(self):
        return sorted(p.name for p in self.room.iterdir() if p.name != "roster")

    def run(self, *words, text=b"", before=(), **more):
        return subprocess.run([*before, self.program, *words], input=text, capture_output=True, cwd=self.room, **more)

    def case(self, name, words, before, after, out, err="", text=b"", beside=(), **more):
        self.load(before)
        for lock in beside:
            (self.room / lock).touch()
        got = self.run(*words, text=text, **more)
        seen = got.stdout.decode(), got.stderr.decode(), self.left(), self.beside()
        self.result(name, seen == (out, err, after, list(beside)), seen[:2] + (seen[2] == after, seen[3]))


FIRST = pair(5), pair(7, year="57", day="001.00000000"), pair(339999, year="56", day="366.99999999"), pair(9, designator="        ")
FULL = packed([spelt(*pair(100 + i, day="%012.8f" % (1 + i * 7 % 64))) for i in range(64)])


def as_it_is(test):
    """Every answer, with the file afterwards."""
    many = joined(*FIRST) + b"ISS\n\n" + joined(*REFUSED.values(), pair(5, year="99"), pair(5, year="01")) + pair(6)[1] + b"\n" + pair(6)[0]
    for name, text, before in (
        ("an empty text, no file", b"", None),
        ("one pair, no file", joined(pair(5)), None),
        ("many pairs, no file", many, None),
        ("many pairs", many, packed([spelt(*pair(n)) for n in (4, 6, 8)])),
        ("the same pairs again", joined(*FIRST), packed([spelt(*p) for p in FIRST])),
        ("a full roster", joined(pair(5), pair(100, year="01"), pair(163, year="99")), FULL),
        ("a damaged roster", many, FULL[:-1] + b"1"),
        ("a short file", joined(pair(5)), FULL[:-1]),
        ("a long file", joined(pair(5)), FULL + b"\0"),
        ("an empty file", joined(pair(5)), b""),
    ):
        buffer = EMPTY if before is None else before
        steps, out = told(text, buffer)
        test.case("lodge, " + name, ["roster", "lodge"], before, steps[-1][0] if steps else before, out, text=text)
    for name, buffer in (("none", EMPTY), ("four", packed([spelt(*p) for p in FIRST])), ("64", FULL), ("a damaged one", FULL[1:] + b"\0")):
        test.case("list " + name, ["roster", "list"], buffer, buffer, listed(buffer))
    for n in (5, 7, 339999, 6, 10 ** 30):
        before = packed([spelt(*p) for p in FIRST])
        answer, after, _ = withdrawn(before, row_of(held(before)), n)
        n = min(n, 10 ** 18 - 1)
        out = f"withdrew satellite {n}.\n" if answer == "ok" else f"refusal 21: the roster has no pair of satellite {n}.\n"
        test.case(f"withdraw {n}", ["roster", "withdraw", str(n)], before, after, out)
    test.case("withdraw, a damaged roster", ["roster", "withdraw", "5"], FULL[:-1] + b"1", FULL[:-1] + b"1", NO_ROSTER)
    test.load(FULL)
    stamp = test.file.stat()
    test.run("roster", "lodge", text=joined(pair(5), pair(100, day="001.00000000")))
    test.result("nothing changed: nothing written", (test.file.stat().st_ino, test.file.stat().st_mtime_ns) == (stamp.st_ino, stamp.st_mtime_ns))
    test.load(None)
    test.run(f"{test.room}/roster", "lodge", text=joined(pair(5)))
    test.result("a file in another folder", test.left() == packed([spelt(*pair(5))]) and test.beside() == [])


def failing(test):
    """Arguments that are none, files, input and output that fail."""
    one = packed([spelt(*pair(5))])
    text = joined(pair(5), pair(6))
    for words in ([], ["roster"], ["roster", "lodged"], ["roster", "list", "5"], ["roster", "withdraw"], ["roster", "withdraw", "5", "6"]):
        test.case("words " + " ".join(words), words, one, one, "", USAGE)
    for word in ("", "5x", "-5", " 5"):
        test.case(f"withdraw '{word}'", ["roster", "withdraw", word], one, one, "", "the number to withdraw has digits and nothing else\n")
    for command in (["list"], ["withdraw", "5"]):
        test.case(f"{command[0]}, no file", ["roster", *command], None, None, "", "cannot open roster: No such file or directory\n")
    test.case("no folder", ["none/roster", "lodge"], None, None, "", "cannot make none/roster.lock: No such file or directory\n", text=text)
    test.case("a folder for a file", ["/", "list"], None, None, "", "cannot read /: Is a directory\n")
    test.case("locked", ["roster", "lodge"], one, one, "", "roster.lock" + LOCKED, text=text, beside=["roster.lock"])
    test.case("locked, withdraw", ["roster", "withdraw", "5"], one, one, "", "roster.lock" + LOCKED, beside=["roster.lock"])
    test.case("locked, listed all the same", ["roster", "list"], one, one, listed(one), beside=["roster.lock"])
    for name, source, sink, after, said in (
        ("a directory for its input", "/", "out", None, "cannot read standard input: Is a directory\n"),
        # the pair whose answer could not be printed is in the file, and no further one
        ("a full device for its output", "text", "/dev/full", one, "cannot write to standard output: No space left on device\n"),
    ):
        test.load(None)
        (test.room / "text").write_bytes(text)
        source = os.open(test.room / source, os.O_RDONLY)
        sink = os.open(test.room / sink, os.O_WRONLY | os.O_CREAT)
        got = subprocess.run([test.program, "roster", "lodge"], stdin=source, stdout=sink, stderr=subprocess.PIPE, cwd=test.room)
        os.close(source)
        os.close(sink)
        test.result(name, got.stderr.decode() == said and test.left() == after and "roster.lock" not in test.beside(), got.stderr)
    test.load(None)
    read, write = os.pipe()
    os.close(read)
    got = subprocess.run([test.program, "roster", "lodge"], input=text, stdout=write, stderr=subprocess.PIPE, cwd=test.room)
    os.close(write)
    said = b"cannot write to standard output: Broken pipe\n"
    test.result("its output a pipe that nobody reads", got.stderr == said and test.left() == one and test.beside() == [], got.stderr)


# ------------------------------------------------------------------ stopped at any moment

TEXT = joined(pair(5), pair(3, year="99"), pair(5, year="99"), pair(7), pair(5, year="01"))
CALLS = ("openat", "read", "write", "fsync", "close", "rename", "unlink", "sched_yield")


def whole(test, before, out, stopped):
    """The file is the old roster or one of those on the way: that of all that was told, or the next."""
    steps, _ = told(TEXT, before or EMPTY)
    states = [(before, "")] + steps
    reached = max(i for i, (_, printed) in enumerate(states) if out.startswith(printed))
    return test.left() in [buffer for buffer, _ in states[reached:reached + (2 if stopped else 1)]]


def again(test, before):
    """Another run, when the lock is removed, finishes what was begun; nothing is left beside the file."""
    (test.room / "roster.lock").unlink(missing_ok=True)
    test.run("roster", "lodge", text=TEXT)
    return test.left() == told(TEXT, before or EMPTY)[0][-1][0] and test.beside() == []


def stopped(test):
    """Killed at each system call, and with an error from each."""
    if not shutil.which("strace") or subprocess.run(["strace", "-o", "/dev/null", "true"], capture_output=True).returncode:
        print("keep_roster: there is no strace that works; it is not stopped at each of its system calls")
        return
    for before in (None, packed([spelt(*pair(n, year="98")) for n in (3, 5, 6)])):
        for call in CALLS:
            for what, error in (("signal=KILL", False), ("error=EIO", True)):
                for when in range(1, 200):
                    test.load(before)
                    tracing = ["strace", "-qq", "-o", "/dev/null", "-e", f"trace={call}", "-e", f"inject={call}:{what}:when={when}"]
                    got = test.run("roster", "lodge", text=TEXT, before=tracing)
                    out, said = got.stdout.decode(), got.stderr.decode()
                    if got.returncode == 0 and not said and out == told(TEXT, before or EMPTY)[1]:
                        break
                    good = whole(test, before, out, True)
                    if error:
                        good = good and (got.returncode != 0 or said.count("\n") == 1) and (call == "unlink" or test.beside() == [])
                    test.result(f"{call} {when}, {what}", good and again(test, before), (out, said))


def limited(test):
    """A file that may not grow past a size: a signal, and where that is ignored an error."""
    before = packed([spelt(*pair(5, year="98"))])
    for size in (0, 1, 69, 138, 4095, 4096, 4097, 8831):
        for ignored in (False, True):
            test.load(before)

            def narrow():
                signal.signal(signal.SIGXFSZ, signal.SIG_IGN if ignored else signal.SIG_DFL)
                resource.setrlimit(resource.RLIMIT_FSIZE, (size, size))

            got = test.run("roster", "lodge", text=TEXT, preexec_fn=narrow, restore_signals=False)
            said = got.stderr.decode()
            good = test.left() == before and got.stdout == b""
            if ignored:
                good = good and said == "cannot write roster.new: File too large\n" and test.beside() == []
            else:
                good = good and got.returncode == -signal.SIGXFSZ
            test.result(f"a file of {size} bytes at most, signal {'ignored' if ignored else 'taken'}", good and again(test, before), said)


def at_random(test):
    """Killed at moments that it does not choose."""
    for turn in range(40):
        test.load(None)
        with open(test.room / "out", "w+b") as out:
            running = subprocess.Popen([test.program, "roster", "lodge"], stdin=subprocess.PIPE, stdout=out, stderr=subprocess.DEVNULL, cwd=test.room)
            try:
                running.stdin.write(TEXT)
                running.stdin.close()
                running.wait(timeout=turn * 0.0005)
            except (subprocess.TimeoutExpired, BrokenPipeError):
                running.kill()
            running.wait()
            out.seek(0)
            printed = out.read().decode()
        (test.room / "out").unlink()
        test.result(f"killed after {turn * 0.5} ms", whole(test, None, printed, True) and again(test, None), printed)


def at_once(test):
    """Many at once: what one was told is in the file, and what one was not told of can be done again."""
    for turn in range(5):
        test.load(None)
        texts = [joined(*(pair(8 * i + j + 1) for j in range(8))) for i in range(8)]
        running = [subprocess.Popen([test.program, "roster", "lodge"], stdin=subprocess.PIPE, stdout=subprocess.PIPE, stderr=subprocess.PIPE, cwd=test.room) for _ in texts]
        for process, text in zip(running, texts):
            process.stdin.write(text)
            process.stdin.close()
        answers = [(p.stdout.read().decode(), p.stderr.read().decode()) for p in running]
        for process in running:
            process.wait()
        there = {catalogue(p) for p in held(test.left() or EMPTY) or []}
        lodged_ones = {int(line.split()[-1].rstrip(".")) for out, _ in answers for line in out.splitlines() if "lodged satellite" in line}
        good = lodged_ones == there and test.beside() == [] and all(said in ("", "roster.lock" + LOCKED) for _, said in answers)
        for text in texts:
            test.run("roster", "lodge", text=text)
        test.result(f"eight at once, {len(lodged_ones)} of 64 lodged", good and len(held(test.left())) == 64, [said for _, said in answers])


def main():
    parser = argparse.ArgumentParser(description=__doc__, formatter_class=argparse.RawDescriptionHelpFormatter)
    parser.add_argument("--program", nargs=2, type=Path)
    parser.add_argument("--run")
    asked = parser.parse_args()
    if asked.program:
        buffer = packed([spelt(*p) for p in FIRST] + [spelt(*pair(100 + i, day="%012.8f" % (1 + i * 7 % 64))) for i in range(60)])
        asked.program[0].write_bytes(buffer)
        asked.program[1].write_text(listed(buffer), encoding="ascii")
    if asked.run:
        with tempfile.TemporaryDirectory() as room:
            test = Test(asked.run, room)
            for part in (as_it_is, failing, stopped, limited, at_random, at_once):
                part(test)
        print(f"{test.passed} passed, {test.failed} failed")
        sys.exit(test.failed > 0 or test.passed == 0)


if __name__ == "__main__":
    main()
