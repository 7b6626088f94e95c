"""What the library is made of beside its proved sources: the memory that it keeps between calls, the calls that C has
in place of a proved one, and the atomic instructions by which calls reach what threads share, whatever the sources look
like. An add on a word of the table is one instruction; a lock, one owner more or a turn of a place is another."""
import collections
import functools
import re
import subprocess

# What may be written between calls, by its section: a byte to which a block of no bytes points.
KEPT = {".bss": 1}
# What is written as a program starts, and closed then.
CLOSED = {".data.rel.ro", ".dynamic", ".got", ".got.plt", ".relro_padding"}
# The calls that C has: a text for each status, frees that do nothing if they get NULL, and calls of lists, which hand the
# proved one an array that is somewhere if they get NULL for one of size 0.
IN_C = {f"renamer_{name}"
        for name in ("explain", "free", "free_quiet", "free_taker", "name_many", "name_list", "grants", "counts", "holders",
                     "take_many")}
# The functions that the archive has beside the proved ones: by which it takes memory, the text for each status, and the
# proved calls that C calls, by other names.
BESIDE = {"rattle_alloc", "rattle_realloc", "rattle_dealloc", "renamer_explain",
          *(f"{name}_proved" for name in IN_C - {"renamer_explain"})}
# The calls that add to words of the table, and those that begin or end a lane or a floor, which go to owners and
# places. The others have no atomic instruction.
ADD = {f"renamer_{name}"
       for name in ("enter", "name", "name_list", "name_many", "step", "sweep", "take", "take_many")}
BEGIN_OR_END = {f"renamer_{name}" for name in ("close", "free", "free_quiet", "free_taker", "hand_back", "join", "join_all",
                                               "open", "open_after", "open_apart", "open_takes", "split",
                                               "split_taker", "take_back")}
SECTION = re.compile(r"\] (\S+) +\w+ +\w+ \w+ (\w+) \w+ +\w*W\w* ")
FUNCTION = re.compile(r"[0-9a-f]+ <(\S+)>:$")
ADDS = re.compile(r"\tlock (?:xadd|add|inc)")
# A call of a pointer and one of the system are among them: what they do is not known.
OTHERS = re.compile(r"\t(?:lock |xchg .*\(|call +\*|syscall)")
# By a relocation, or in the same section.
CALLED = re.compile(r"R_X86_64_P(?:LT|C)32\t(?:\.text\.)?(\S+?)(?:[-+]0x[0-9a-f]+)?$|"
                    r"\t(?:call|jmp) +[0-9a-f]+ <([^+>]+)>")


def said(*words):
    return subprocess.run(list(map(str, words)), capture_output=True, text=True, check=True).stdout


def kept(built):
    """How many bytes of each section may be written between calls."""
    sizes = {section: int(size, 16) for section, size in SECTION.findall(said("readelf", "-SW", built))}
    return {section: size for section, size in sizes.items() if size and section not in CLOSED}


def sizes_of(archive):
    """How long the code of each call is."""
    found = re.findall(r"^\w+ (\w+) T (renamer_\w+)$", said("nm", "-S", archive), re.M)
    return {name: size for size, name in found}


def functions_of(archive):
    """The functions whose code is there."""
    return set(re.findall(r" [tTW] (\S+)$", said("nm", archive), re.M))


def steps_of(archive):
    """How many atomic adds the code of each call has, and how many other atomic instructions: its own, and those of
    what it calls, for each place where it does."""
    own, calls, name = collections.Counter(), collections.defaultdict(list), ""
    for line in said("objdump", "-dr", "--no-show-raw-insn", archive).splitlines():
        if begun := FUNCTION.match(line):
            name = begun[1]
        elif OTHERS.search(line):
            own[name, ADDS.search(line) is not None] += 1
        elif called := CALLED.search(line):
            calls[name].append(called[1] or called[2])

    @functools.cache
    def steps(function, are_adds):
        below = [called for called in calls[function] if called != function]
        return own[function, are_adds] + sum(steps(called, are_adds) for called in below)

    return {name: (steps(name, True), steps(name, False)) for name in sizes_of(archive)}


def wrong(archive, shared, proved):
    """What the archive or the shared library has, and is not listed; beside the archive of the proved library."""
    for built in (archive, shared):
        if kept(built) != KEPT:
            yield f"{built.name} can write {kept(built)} between calls, and not {KEPT}"
    of_proved = sizes_of(proved)
    for name in sorted({name for name, size in sizes_of(archive).items() if of_proved.get(name) != size} ^ IN_C):
        yield f"{name} is not the proved call, or is one that C should have"
    for name in sorted((functions_of(archive) - functions_of(proved)) ^ BESIDE):
        yield f"{name} is in the archive and not proved, or should be there"
    for name, (adds, others) in sorted(steps_of(archive).items()):
        if name not in BEGIN_OR_END and (others or (adds > 0) != (name in ADD)):
            yield f"{name} has {adds} atomic adds, and {others} other atomic instructions"
