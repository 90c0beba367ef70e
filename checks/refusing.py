"""Runs of the program of which refuse.c refuses one request, and the count of what they show: for no_memory.py and faults.py."""
import concurrent.futures
import os
import re
import subprocess
import sys
import tempfile
import threading
import time

HERE = os.path.dirname(os.path.abspath(__file__))
richd = os.environ.get("RICHD") or os.path.join(HERE, "../crates/richd/out/richd")
PATIENCE = 10  # seconds: no answer and no end of the program takes longer

NO_MEMORY, STORE_FAILED, FAULT = b"error 22 NoMemory\n", b"error 21 StoreFailed\n", b"error 34 Fault\n"
CAUSE = rb"^error 34 Fault\nrichd: (?:opening|locking|making|reading|writing|syncing) [^\n]+: [^\n]+\n"
S = ["--slots", "2", "--slot", "256", "--docs", "2", "--cell", "256", "--sources", "4", "--keep", "2"]


class Disagreement(Exception):
    """The program did what it must not."""


class Skipped(Exception):
    """A row can't be played here."""


def agree(truth, what):
    if not truth:
        raise Disagreement(what)


def refusals_of(errors):
    """The refusals on standard error. Behind each Fault a line has to say what was tried and the system's reason."""
    told, count = re.subn(CAUSE, FAULT, errors, flags=re.M)
    agree(count == told.count(FAULT), f"a Fault without its cause: {errors[:300]!r}")
    return told


class Refusal:
    """One request that is refused, over all programs that are started under it; none where `at` is 0."""

    def __init__(self, library, folder, kind, at, how="none", more=""):
        self.kind, self.at, self.how = kind, at, how
        self.count_path, self.store = os.path.join(folder, "count"), os.path.join(folder, "store")
        self.has_shown = False  # in the end of a run
        self.begins = []  # how many requests had been made when each program was started
        with open(self.count_path, "wb") as file:
            file.write(bytes(16))
        self.variables = {
            **os.environ,
            "LD_PRELOAD": library,
            "REFUSE_KIND": kind,
            "REFUSE_AT": str(at),
            "REFUSE_HOW": how,
            "REFUSE_MORE": more,
            "REFUSE_STORE": self.store,
            "REFUSE_COUNT": self.count_path,
        }

    def counts(self):
        """How many requests of the kind were made so far, and how many reads of the store's file before the one that was refused."""
        with open(self.count_path, "rb") as file:
            return [int.from_bytes(file.read(8), "little") for _ in range(2)]

    def count(self):
        return self.counts()[0]

    def met(self):
        """Whether the request was made, and so refused."""
        return 0 < self.at <= self.count()

    def is_seen(self):
        """Whether the refusal may show."""
        return self.how not in ("short", "interrupted")

    def is_of_the_writer(self):
        """Whether it is the first thread of a program that is refused, which is the one that writes. Each other one may be missing."""
        return self.kind == "thread" and self.at - 1 in self.begins

    def is_of_the_file(self):
        """Whether it is a call of the store's file that fails; else it is memory or a thread that is refused."""
        return self.kind in ("read", "write", "sync")

    def ends_of_start(self):
        """What a program says that the refusal ends before it serves: NoMemory, or Fault where the file is at fault, or was being opened."""
        if self.is_of_the_file():
            return [FAULT]
        is_opening = self.kind == "memory" and self.counts()[1] == 0
        return [NO_MEMORY, FAULT] if is_opening else [NO_MEMORY]

    def shows_in(self, ended, wanted=b""):
        """Whether the refusal shows in the end of a run. A program without memory may have printed a part of what is wanted before."""
        if self.has_shown or not (self.met() and self.is_seen()):
            return False
        status, output, errors = ended
        may_be = status == 1 and errors in self.ends_of_start() and wanted.startswith(output)
        if self.is_of_the_file():
            agree(may_be and output == b"", f"it gives {ended} where a call failed")
        self.has_shown = may_be
        return may_be

    def run_till_done(self, words, wanted=b""):
        """What a run gives at last: one that the refusal ended is run once more."""
        ended = self.run(words)
        return self.run(words) if self.shows_in(ended, wanted) else ended

    def start(self, words, **streams):
        self.begins.append(self.count())
        return subprocess.Popen([richd, *words], env=self.variables, stderr=subprocess.PIPE, bufsize=0, **streams)

    def run(self, words):
        """Runs the program to its end: its status, its output and its errors."""
        process = self.start(words, stdout=subprocess.PIPE, stdin=subprocess.DEVNULL)
        try:
            output, errors = process.communicate(timeout=PATIENCE)
        except subprocess.TimeoutExpired:
            process.kill()
            process.communicate()
            raise Disagreement(f"`{words[0]}` didn't end within {PATIENCE} s") from None
        return process.returncode, output, refusals_of(errors)


def library_in(folder):
    """The library that refuses a request, built of refuse.c in this folder."""
    library = os.path.join(folder, "refuse.so")
    subprocess.run(["cc", "-O2", "-shared", "-fPIC", "-o", library, os.path.join(HERE, "refuse.c"), "-ldl"], check=True)
    return library


def undisturbed(*words):
    """The output of a run of which nothing is refused."""
    ended = subprocess.run([richd, *words], capture_output=True, timeout=6 * PATIENCE)
    agree(ended.returncode == 0, f"`{words[0]}` ended with status {ended.returncode}: {ended.stderr[:200]!r}")
    return ended.stdout


def content_of(path):
    with open(path, "rb") as file:
        return file.read()


def spread(count, most):
    """At most so many of the numbers 1 to `count`, with its first and its last."""
    if count <= most:
        return list(range(1, count + 1))
    return sorted({1 + number * (count - 1) // max(1, most - 1) for number in range(most)})


class Tally:
    """What a check has tried and found. It prints a line for each disagreement, with what was refused."""

    def __init__(self):
        self.began, self.lock = time.monotonic(), threading.Lock()
        self.refused, self.disagreements = 0, 0

    def disagree(self, row, refusal, what):
        with self.lock:
            self.disagreements += 1
            print(f"DISAGREES  {row}, {refusal}: {what}", flush=True)

    def end(self, what):
        if self.refused == 0:
            self.disagree("all rows", "none", "nothing was refused: is the program one that calls the C library which is preloaded?")
        took = time.monotonic() - self.began
        print(f"{self.refused} {what}, {self.disagreements} disagreements, {took:.0f} s")
        sys.exit(1 if self.disagreements else 0)


def try_each(tally, rows, kinds, most, workers):
    """Runs each row with the first, second, .. request of each kind refused, until none is met; of more than `most` only so many.

    A row has a name and a call that takes a Refusal, whose folder is empty but for the count, and raises Disagreement.
    """

    def once(library, name, row, kind, how, at):
        with tempfile.TemporaryDirectory() as folder:
            refusal = Refusal(library, folder, kind, at, how)
            what = f"{kind} {at}" + ("" if how == "none" else f" ({how})")
            try:
                row(refusal)
            except Disagreement as disagreement:
                tally.disagree(name, what, disagreement)
            except Exception as error:  # the check itself can't go on: this is shown, and counts
                tally.disagree(name, what, repr(error))
            if refusal.met():
                with tally.lock:
                    tally.refused += 1
            return refusal.count()

    with tempfile.TemporaryDirectory() as folder, concurrent.futures.ThreadPoolExecutor(workers) as pool:
        library = library_in(folder)
        for name, row in rows:
            counts = {}  # of each kind, how many requests an undisturbed run makes
            for kind, how in kinds:
                began, before, wrong = time.monotonic(), tally.refused, tally.disagreements
                if kind not in counts:
                    counts[kind] = once(library, name, row, kind, how, 0)
                count = counts[kind]
                for run in [pool.submit(once, library, name, row, kind, how, at) for at in spread(count, most)]:
                    run.result()
                beyond = count + 1  # runs beside threads may make more requests than the one that was counted
                while count < most and once(library, name, row, kind, how, beyond) >= beyond:
                    beyond += 1
                took = time.monotonic() - began
                print(
                    f"{name}, {kind}{'' if how == 'none' else ' (' + how + ')'}: {tally.refused - before} of {count} refused, "
                    f"{tally.disagreements - wrong} disagreements, {took:.1f} s",
                    flush=True,
                )


def play_each(rows):
    """Plays rows that are calls without arguments, prints a line for each, and ends the program."""
    failed = skipped = 0
    for row in rows:
        try:
            row()
            print(f"ok       {row.__name__}", flush=True)
        except Skipped as why:
            skipped += 1
            print(f"skipped  {row.__name__}: {why}", flush=True)
        except (Disagreement, OSError, subprocess.SubprocessError) as disagreement:
            failed += 1
            print(f"FAILED   {row.__name__}: {disagreement}", flush=True)
    print(f"{'FAILED' if failed else 'ok'}: {len(rows)} rows, {failed} failed, {skipped} skipped")
    sys.exit(1 if failed else 0)


def arguments():
    """How many requests of a row are refused at most, and how many runs go on at once."""
    words = [int(word) for word in sys.argv[1:]]
    return (words[0] if words else 1 << 62), (words[1] if len(words) > 1 else os.cpu_count() or 1)
