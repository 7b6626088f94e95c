"""The programs in C and C++ that stand in bindings/c, compiled and run, as they are and under the compilers'
sanitizers."""
import dataclasses
import os
import pathlib
import re
import shutil
import subprocess

ROOT = pathlib.Path(__file__).resolve().parents[2]
C, RUST, OUT = ROOT / "bindings" / "c", ROOT / "bindings" / "rust", ROOT / "out"
STRICT = ["-Wall", "-Wextra", "-Wpedantic", "-Werror", "-O1", "-g"]
# With which what users see is compiled too: the headers, the examples, and the programs of pages.
CAREFUL = {"cc": ["-Wconversion"], "c++": ["-Wconversion", "-Wzero-as-null-pointer-constant"]}
# By which programs in C++ are compiled once more, since their header has all of its code.
SECOND = "clang++"
# Another processor: its name, its compiler, by what its programs run here, and the packages of Debian that have these.
ARM, ARM_CC, ARM_RUN = "aarch64-unknown-linux-gnu", "aarch64-linux-gnu-gcc", "qemu-aarch64"
ARM_HOME = pathlib.Path("/usr/aarch64-linux-gnu")
ARM_PACKAGES = {ARM_CC: "gcc-aarch64-linux-gnu", ARM_RUN: "qemu-user", str(ARM_HOME): "libc6-dev-arm64-cross"}
# The processor that an emulator stands for: one that has what all x86-64 have.
LEAST = ["qemu-x86_64", "-cpu", "qemu64"]
# The standards that the header is to compile by; programs are compiled by the first.
STANDARDS = {"cc": ["c99", "c11", "c17", "c2x"], "c++": ["c++11", "c++14", "c++17", "c++20", "c++2b"]}
# The other compiler of each language.
OTHERS = {"cc": "clang", "c++": SECOND}
WRAPPED = "-Wl,--wrap=malloc,--wrap=calloc,--wrap=realloc,--wrap=free"
# What a sanitizer wants of the compiler, and of the program that runs.
SANITIZERS = {
    "thread": (["-fsanitize=thread"], {"TSAN_OPTIONS": "halt_on_error=1"}),
    "address and leak": (["-fsanitize=address"], {"ASAN_OPTIONS": "detect_leaks=1"}),
    "undefined": (["-fsanitize=undefined", "-fno-sanitize-recover=all"], {}),
}
# The words of programs that take some: as they are, under a sanitizer that is named, and under the others.
WORDS = {
    "rounds.c": {None: ["100000"], "undefined": ["10000"], "others": ["2000"]},
    "fuzz.c": {None: ["1", "2000000"], "others": ["2", "200000"]},
    "many_lanes.c": {None: ["1000"], "others": ["100"]},
    "lane_after_lane.c": {None: ["100000"], "others": ["2000"]},
    "lanes_at_once.c": {None: ["200001"], "others": ["2000"]},
    "one_for_each.c": {None: ["20000"], "others": ["200"]},
    "join_all_ends.c": {None: ["500"], "others": ["20"]},
    "slots_back.c": {None: ["10000"], "others": ["200"]},
}
VALGRIND = ["valgrind", "-q", "--leak-check=full", "--error-exitcode=9"]
# So long may a command run, which takes a minute or two if nothing else runs.
SECONDS = 1800
# How much is shown of what a command printed that failed.
MOST_SAID = 600


class Wrong(Exception):
    """What is wrong, in one line or more."""


class NotTried(Exception):
    """Why a case was not tried, though nothing that must be there is missing."""


@dataclasses.dataclass
class Program:
    """A program in C or C++: its source, what else it is made of, and what it prints, if that is one text. A long one
    takes a minute or stops its own threads, and runs neither under sanitizers nor on ARM. One whose data goes from
    thread to thread with a lane does not run under the sanitizer for threads, which does not see that order."""

    source: pathlib.Path
    others: tuple = ()
    prints: str = ""
    is_long: bool = False
    is_order_unseen: bool = False

    def compiler(self):
        return "c++" if self.source.suffix == ".cpp" else "cc"

    def words(self, sanitizer):
        words = WORDS.get(self.source.name, {})
        return words.get(sanitizer, words.get("others", []))


def tests(*names, **more):
    """The tests in C of these names."""
    return (Program(C / "tests" / f"{name}.c", **more) for name in names)


GROWTHS = (C / "tests" / "growths.c", WRAPPED)
FUZZ = Program(C / "tests" / "fuzz.c", (C / "tests" / "model.c", *sorted((C / "tests").glob("calls_*.c")), *GROWTHS))
EPOCHS = "".join(f"epoch {epoch}: {2 * epoch + 2} clients in the first rows\n" for epoch in (1, 2, 3))
UNSEEN = Program(C / "tests" / "unseen.c", is_order_unseen=True)
TABLE = Program(C / "examples" / "table.c", prints=EPOCHS)
# What the examples print by which workers take names, in each language.
WORKERS = "64 workers filled the rows 0 to 6399, each once\n"
STATS, CONNECTIONS = "64 threads counted to 64000 in 4 rows\n", "4000 connections had one of 16 rows each\n"
COMPACT = "14286 of 100000 numbers are kept, without gaps\n"
PROGRAMS = (
    *tests("carried", "frozen", "behind", "atomic_steps", is_long=True),
    Program(C / "examples" / "pool.c", prints="622 workers have the numbers 0 to 621\n"),
    TABLE,
    Program(C / "examples" / "lanes.cpp", prints="3000 clients have the names 0 to 2999\n"),
    Program(C / "examples" / "workers.c", prints=WORKERS),
    Program(C / "examples" / "stats.c", prints=STATS, is_order_unseen=True),
    Program(C / "examples" / "connections.c", prints=CONNECTIONS, is_order_unseen=True),
    Program(C / "examples" / "compact.cpp", prints=COMPACT, is_order_unseen=True),
    *tests("names", "statuses", "listed", "handed", "joined", "many_lanes", "one_for_each", "refilled", "next_floor",
           "join_all_ends", "slots_back"),
    *tests("asked", "lane_size", others=(WRAPPED,)),
    *tests("memory", "rounds", "lane_after_lane", "lanes_at_once", "takers", others=GROWTHS),
    UNSEEN,
    Program(C / "tests" / "objects.cpp"),
    FUZZ,
)


def run(words, folder=ROOT, seconds=SECONDS, **environment):
    """Runs a command to its end, and returns what it printed; it is wrong if it fails."""
    done = subprocess.run(list(map(str, words)), cwd=folder, env={**os.environ, **environment}, timeout=seconds,
                          stdin=subprocess.DEVNULL, capture_output=True, text=True)
    if done.returncode != 0:
        said = " ".join((done.stdout + done.stderr).split())
        raise Wrong(f"{pathlib.Path(words[0]).name}: status {done.returncode}: {said[-MOST_SAID:]}")
    return done.stdout


def compiled(program, folder, name, flags, compiler=None, out=OUT):
    """Compiles a program with some flags more."""
    made = folder / f"{program.source.name}-{name}".replace(" ", "-")
    own = program.compiler()
    careful = CAREFUL[own] if program.source.parent.name == "examples" else []
    run([compiler or own, f"-std={STANDARDS[own][0]}", *STRICT, *careful, *flags, "-I", out / "include", program.source,
         *program.others, "-o", made, out / "lib" / "librenamer.a", "-lpthread"])
    return made


def run_program(program, folder, sanitizer=None):
    """Compiles and runs a program, under a sanitizer if one is named."""
    flags, environment = SANITIZERS[sanitizer] if sanitizer else ([], {})
    made = compiled(program, folder, sanitizer or "plain", flags)
    printed = run([made, *program.words(sanitizer)], **environment)
    if program.prints and printed != program.prints:
        raise Wrong(f"it printed {printed!r}, not {program.prints!r}")


def run_by_second(program, folder):
    """Runs a program in C++ as another compiler makes it."""
    if not shutil.which(SECOND):
        raise NotTried(f"{SECOND} is not here; Debian has it in the package clang")
    run([compiled(program, folder, SECOND, [], SECOND)])


def run_on_arm(program, folder):
    """Runs a program in C that is made for ARM, as an emulator of that processor runs it."""
    made = compiled(program, folder, "arm", [], ARM_CC, OUT / ARM)
    printed = run([ARM_RUN, "-L", ARM_HOME, made, *program.words("others")])
    if program.prints and printed != program.prints:
        raise Wrong(f"it printed {printed!r}, not {program.prints!r}")


def run_by_least(words):
    """Runs a program by the least processor."""
    if not shutil.which(LEAST[0]):
        raise NotTried(f"{LEAST[0]} is not here; Debian has it in the package qemu-user")
    return run([*LEAST, *words])


def arm_cases(folder):
    """A case for each program in C on ARM."""
    for program in PROGRAMS:
        if program.compiler() == "cc" and not program.is_long:
            name = f"{program.source.relative_to(ROOT)}, ARM"
            yield name, lambda program=program: run_on_arm(program, folder)


def fuzz_by_valgrind(folder):
    """Random calls with arrays of exact sizes by valgrind, which also sees the archive's own loads and stores."""
    if not shutil.which("valgrind"):
        raise NotTried("not here, so it did not see the archive's loads and stores")
    made = compiled(FUZZ, folder, "valgrind", ["-DGUARD=0"])
    run([*VALGRIND, made, "3", "100000"])


def has_sanitizer(compiler, sanitizer, folder):
    """Whether a program runs that was compiled with the sanitizer."""
    source = folder / f"none-{compiler}.{'cpp' if compiler == 'c++' else 'c'}"
    source.write_text("int main(void) { return 0; }\n")
    made = folder / f"none-{compiler}-{sanitizer.split()[0]}"
    try:
        run([compiler, *SANITIZERS[sanitizer][0], source, "-o", made])
        run([made], **SANITIZERS[sanitizer][1])
    except Wrong:
        return False
    return True


def page_silences(folder):
    """The sanitizer for threads reports lanes that go from thread to thread, but not with the lines of the page."""
    if not has_sanitizer("cc", "thread", folder):
        raise NotTried("the sanitizer for threads is not here, so it was not silenced")
    made, lines = compiled(UNSEEN, folder, "silenced", SANITIZERS["thread"][0]), folder / "silenced"
    refuses([made], "data race")
    lines.write_text("\n".join(re.findall(r"`(race:[^`]+)`", (C / "README.md").read_text())))
    run([made], TSAN_OPTIONS=f"halt_on_error=1 suppressions={lines}")


def sanitized(compiler, folder):
    """A case for each program of a compiler under each sanitizer; says of each whether it is there."""
    programs = [program for program in PROGRAMS if program.compiler() == compiler and not program.is_long]
    for sanitizer in SANITIZERS:
        there = has_sanitizer(compiler, sanitizer, folder)
        seen = [program for program in programs if sanitizer != "thread" or not program.is_order_unseen]
        what = f"{len(seen)} program{'s' * (len(seen) > 1)} of {compiler}"
        print(f"sanitizer {sanitizer}: {'here, for' if there else 'not here, so it did not run'} {what}", flush=True)
        for program in seen if there else ():
            name = f"{program.source.relative_to(ROOT)}, sanitizer {sanitizer}"
            yield name, lambda program=program, sanitizer=sanitizer: run_program(program, folder, sanitizer)


def cases(compiler, folder):
    """The cases of a compiler: a name, and what raises Wrong."""
    for program in PROGRAMS:
        name = f"{program.source.relative_to(ROOT)}"
        if program.compiler() == compiler:
            yield name, lambda program=program: run_program(program, folder)
        if program.compiler() == compiler == "c++":
            yield f"{name}, {SECOND}", lambda program=program: run_by_second(program, folder)
    for standard in STANDARDS[compiler]:
        yield f"the header, {standard}", lambda standard=standard: header_stands_alone(compiler, standard, folder)
    yield from sanitized(compiler, folder)
    if compiler == "cc":
        yield "bindings/c/tests/fuzz.c, valgrind", lambda: fuzz_by_valgrind(folder)
        yield "bindings/c, sanitizer thread silenced", lambda: page_silences(folder)
        yield "the archive, least processor", lambda: run_by_least([compiled(TABLE, folder, "least", [])])


def header_stands_alone(compiler, standard, folder):
    """The header needs no other before it, and can be included twice, in C++ with the other header; a call whose status is
    not looked at is warned of, and one of NULL that frees nothing, and none else, by both compilers of the language."""
    ending, header, null = ("cpp", "renamer.hpp", "nullptr") if compiler == "c++" else ("c", "renamer.h", "NULL")
    source = folder / f"header-{standard}.{ending}"
    call = "renamer_quota(&lane, &quota)"
    of_null = f"if ({call.replace('&lane', null)}) return 2;"
    for more, warning in (("", ""), (f"{call};", "unused-result"), (of_null, "nonnull")):
        source.write_text(f"""#include "renamer.h"
#include "{header}"
int main(void) {{
    renamer_lane lane = RENAMER_NO_LANE_YET;
    uint64_t quota;
    lane = RENAMER_NO_LANE;
    renamer_free({null});
    {more}
    return {call} == RENAMER_DONE;
}}
""")
        for tool in filter(shutil.which, (compiler, OTHERS[compiler])):
            words = [tool, f"-std={standard}", *STRICT, *CAREFUL[compiler], "-I", C, "-c", "-o", "/dev/null", source]
            if warning:
                refuses(words, warning)
            else:
                run(words)


def refuses(words, warning):
    """A command fails, and says this."""
    try:
        run(words)
    except Wrong as wrong:
        if warning in str(wrong):
            return
        raise
    raise Wrong(f"{pathlib.Path(words[0]).name} does not say {warning!r}")
