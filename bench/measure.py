"""What the scripts of bench/ share: the programs and their peers, times of runs in turn, and rows with their goals.

A script has a function `rows(bench)` that yields what it measured, row by row, and ends in `measure.main(__doc__,
rows)`. A ratio is the median of the ratios of runs that were made in turn, so that a load that comes and goes meets
both sides.
"""
import argparse
import contextlib
import csv
import dataclasses
import functools
import os
import pathlib
import random
import re
import signal
import statistics
import subprocess
import sys
import tempfile
import threading
import time

# No folder of compiled modules among the scripts.
sys.dont_write_bytecode = True
BENCH = pathlib.Path(__file__).resolve().parent
ROOT = BENCH.parent
sys.path.append(str(ROOT / "checks"))
from chosen import rows_of

DEBIAN = "/usr/share/cargo/registry"
# A build that proves everything anew takes this long at most.
BUILD_SECONDS = 7200
# What a command begins with whose peak of memory is printed on standard error, in kilobytes. It ends with what began it.
PEAK = ["/usr/bin/time", "-f", "%M", "setpriv", "--pdeathsig", "KILL"]
HOLDER = re.compile(rb"(?m)^(name \d+ client )(\d+)$")


class Failed(Exception):
    """A program that failed or ran too long, or two outputs that differ."""


@dataclasses.dataclass
class Spent:
    """What a run took: processor time and time by the clock in seconds."""
    processor: float
    clock: float


@dataclasses.dataclass
class Row:
    """What was measured, and by which figures."""
    name: str
    value: float
    detail: str = ""
    unit: str = ""


def goals():
    """The most that a row may be, by script and row. A line of goals.csv may stand for several rows."""
    with open(BENCH / "goals.csv", newline="") as text:
        return {(goal["script"], row): float(goal["at_most"])
                for goal in csv.DictReader(text) for row in rows_of(goal["row"])}


def line(script, row, small):
    """A row as it is printed, and whether it has a goal that it misses."""
    goal = goals().get((script, row.name))
    missed = goal is not None and row.value > goal
    met = ("not met" if missed else "met") + " at a small size" * small
    judged = "no goal" if goal is None else f"at most {goal:g}, {met}"
    detail = f" ({row.detail})" if row.detail else ""
    return f"{script}, {row.name}: {row.value:.3f}{row.unit}; {judged}{detail}", missed


class Bench:
    """The sizes, programs and inputs of one script, which may measure for so many seconds."""

    def __init__(self, options, folder):
        self.small, self.crates, self.folder = options.small, options.crates, pathlib.Path(folder)
        self.ends = time.monotonic() + options.seconds
        self.chance, self.peer = random.Random(1996), None

    def size(self, full, small):
        return small if self.small else full

    # ---- programs

    @contextlib.contextmanager
    def building(self):
        """A build, which has an end of its own and takes none of the time for measuring."""
        began = time.monotonic()
        signal.signal(signal.SIGALRM, too_late)
        signal.alarm(BUILD_SECONDS)
        try:
            yield
        finally:
            signal.alarm(0)
            self.ends += time.monotonic() - began

    def build(self, words, folder=BENCH):
        with self.building():
            done = subprocess.run(words, cwd=folder, stdin=subprocess.DEVNULL, capture_output=True, text=True)
        if done.returncode != 0:
            raise Failed(f"{' '.join(map(str, words))}: {(done.stdout + done.stderr)[-2000:]}")

    @functools.cached_property
    def proved(self):
        self.build([ROOT / "renamer", "--help"])
        return str(ROOT / "crates" / "renamer" / "out" / "renamer")

    def plain(self, network, width, hand, form):
        """The words of the peer in plain Rust, which reads the network as the program shows it."""
        if not self.peer:
            self.peer = self.cargo("plain", "plain")
        wiring = self.folder / f"{network}-{width}"
        wiring.write_bytes(self.written([self.proved, "show", "--network", network, "--width", str(width)]))
        return [self.peer, str(wiring), str(hand), form]

    def cargo(self, folder, name, library=False):
        """A program in plain Rust of a folder of bench/, with the peers' crates; one over the library wants that."""
        source = ['source.crates-io.replace-with="folder"', f'source.folder.directory="{self.crates}"']
        configs = [] if library else [word for one in source for word in ("--config", one)]
        if library:
            self.build([ROOT / "library"])
        self.build(["cargo", "build", "--quiet", "--release", "--offline", *configs], BENCH / folder)
        return str(BENCH / folder / "target" / "release" / name)

    def has_crates(self, *names):
        """Whether the folder of crates has each of these."""
        return all(any(pathlib.Path(self.crates).glob(f"{name}-[0-9]*")) for name in names)

    def compiled(self, words, source, name):
        """What a compiler makes of a source of bench/."""
        self.build([*words, "-o", self.folder / name, source])
        return str(self.folder / name)

    def ours(self, network, width, *words):
        return [self.proved, "run", "--network", network, "--width", str(width), *map(str, words)]

    # ---- inputs

    def write(self, name, header, records):
        path = self.folder / name
        with open(path, "w") as text:
            text.write(header + "\n")
            text.writelines(record + "\n" for record in records)
        return path

    def batch(self, name, epochs, clients, entries):
        """Epochs of so many clients with random identities, and random entries below a number."""
        entry, chance = (lambda: self.chance.randrange(entries)), self.chance
        places = (epoch for epoch in range(epochs) for _ in range(clients))
        return self.write(name, "epoch,client,entry", (f"{e},{chance.getrandbits(64)},{entry()}" for e in places))

    def full(self, entries):
        """The full batch: 16 epochs of 65,536 clients."""
        return self.batch(f"full-{entries}", 16, self.size(65_536, 2_048), entries)

    def single(self, epochs):
        """Epochs of one client."""
        return self.write(f"single-{epochs}", "epoch,client,entry", (f"{epoch},7,0" for epoch in range(epochs)))

    # ---- runs

    def run(self, words, path=os.devnull, status=0, output=subprocess.DEVNULL, errors=subprocess.DEVNULL, **env):
        """Runs a program on an input, to the end or for as long as there is time."""
        with open(path) as text:
            began = time.perf_counter()
            child = subprocess.Popen(
                words, stdin=text, stdout=output, stderr=errors, env={**os.environ, **env}
            )
            timer = threading.Timer(max(self.ends - time.monotonic(), 0), child.kill)
            timer.start()
            try:
                _, ended, usage = os.wait4(child.pid, 0)
            finally:
                timer.cancel()
            took = time.perf_counter() - began
        child.returncode = os.waitstatus_to_exitcode(ended)
        if child.returncode != status:
            late = ", as no time was left" if self.ends <= time.monotonic() else ""
            raise Failed(f"{' '.join(words)}: status {child.returncode}{late}")
        return Spent(usage.ru_utime + usage.ru_stime, took)

    def written(self, words, path=os.devnull, status=0, stream="output"):
        """What a run writes to its standard output, or to the stream `errors`."""
        with open(self.folder / "written", "wb") as text:
            self.run(words, path, status, **{stream: text})
        return (self.folder / "written").read_bytes()

    def agree(self, jobs, path=os.devnull, seen=lambda text: text, **how):
        """Fails unless all of the jobs write the same, as it is seen, and something."""
        first, *others = (seen(self.written(words, path, **how)) for words in jobs)
        if not first or any(other != first for other in others):
            raise Failed(f"outputs differ: {', '.join(' '.join(words) for words in jobs)}")

    def in_turn(self, jobs, rounds):
        """What so many runs of each job take, in turn; another begins each round. A job is its words and its input."""
        spent = [[] for _ in jobs]
        for first in range(rounds):
            for place in range(len(jobs)):
                which = (first + place) % len(jobs)
                spent[which].append(self.run(*jobs[which]))
        return spent

    def compare(self, name, jobs, rounds, by="processor"):
        """The first job's time to the second's."""
        return ratio(name, self.in_turn(jobs, rounds), by)


def ratio(name, pair, by="processor"):
    """The row of two jobs that ran in turn: the median of the ratios of their times, and the medians of the times."""
    first, second = ([getattr(one, by) for one in runs] for runs in pair)
    median = statistics.median(a / b for a, b in zip(first, second))
    times = f"{statistics.median(first):.3g} s and {statistics.median(second):.3g} s"
    runs = f"{len(first)} runs each" if len(first) > 1 else "one run each"
    return Row(name, median, f"{times}{' by the clock' * (by == 'clock')}, {runs}")


def too_late(*_):
    raise Failed(f"a build took more than {BUILD_SECONDS} seconds")


def settled(report):
    """What a report says, but for which client has which name: that is open with several workers."""
    return HOLDER.sub(rb"\1", report), sorted(client for _, client in HOLDER.findall(report))


# ---- a script

def options(description):
    parser = argparse.ArgumentParser(description=description, formatter_class=argparse.RawDescriptionHelpFormatter)
    parser.add_argument("--small", action="store_true", help="small inputs and few runs: shows only that all runs")
    parser.add_argument("--crates", metavar="DIR", default=DEBIAN, help="the folder with the crates of the peers")
    parser.add_argument("--seconds", metavar="N", type=int, default=1800, help="a script measures for so long at most")
    return parser


def measure(script, rows, chosen):
    """Prints the rows of a script. Returns those that it has, which of them miss their goals, and whether it failed."""
    if (ROOT / "renamer").is_symlink():
        sys.exit("bench: these are the pages of a release; what is measured is built in the repository")
    names, missed = [], []
    with tempfile.TemporaryDirectory() as folder:
        try:
            for row in rows(Bench(chosen, folder)):
                text, is_missed = line(script, row, chosen.small)
                print(text, flush=True)
                names.append(row.name)
                missed += [row.name] * is_missed
        except (Failed, SystemExit, subprocess.SubprocessError, OSError) as failure:
            print(f"{script} failed: {failure}", flush=True)
            return names, missed, True
    return names, missed, not names


def main(description, rows):
    script = pathlib.Path(sys.argv[0]).stem
    _, _, failed = measure(script, rows, options(description).parse_args())
    sys.exit(failed)
