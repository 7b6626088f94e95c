"""Compares the header of the library with the crate that it is built from, with the Rust crate over it, and with the
symbols of the archive and of the shared library: calls with what they take and return, structs with their fields, numbers,
statuses, limits; the header for C++ with that for C; what each status is said to mean with TEXTS; and what the archive
wants with what docs/EMBEDDING.md says of that.

A call is a list of the types that it takes, in the words of Rust, and what it returns. A slice of the proved crate is a
pointer and a size, and a handle is a handle in all three.
"""
import pathlib
import re
import subprocess

ROOT = pathlib.Path(__file__).resolve().parents[2]
HEADER = ROOT / "bindings" / "c" / "renamer.h"
OBJECTS = HEADER.with_suffix(".hpp")
RUST = ROOT / "bindings" / "rust"
# The proved crates: the calls, and what handles have and statuses say.
CRATES = [ROOT / "crates" / name / "src" for name in ("cn_handles", "renamer_c")]
OF_C = {"uint32_t": "u32", "uint64_t": "u64", "size_t": "usize", "void": None, "const char *": "text"}
# Only C has it: the proved crate has no texts, and the Rust crate its own.
ONLY_IN_C = "renamer_explain"
COMMENT = re.compile(r"/\*.*?\*/|//[^\n]*", re.S)
EXTERN = r'extern "C" \{(.*?)^\}'
# The limits of a floor.
LIMITS = {"MOST_CLIENTS": 262144, "MOST_CARRIED": 2147483648}
# What is said of each status: in C, and in Rust, if an error has it.
TEXTS = {
    "DONE": ("the call is done", None),
    "NONE": ("the handle is none: it was not opened, or it was freed, handed back or closed", None),
    "MEMORY": ("the system gave no memory, or room for more than 1048576 clients was asked for",
               "the system gave no memory"),
    "KIND": ("there is no such network: RENAMER_BITONIC, RENAMER_PERIODIC or RENAMER_TREE",
             "there is no such network: bitonic, periodic or tree"),
    "WIDTH": ("there is no network of this width: 2, 4, 8, 16, 32, 64, 128 or 256",) * 2,
    "QUOTA": ("the quota is more than a floor takes: 262144 at most",) * 2,
    "NO_SUCH_ENTRY": ("there is no such entry: a tree has only entry 0, others those below their width",) * 2,
    "QUOTA_SPENT": ("the lane or the taker has not so much quota left: renamer_quota says how much a lane has",
                    "the quota of the lane or of the taker is spent"),
    "QUOTA_TOO_SMALL": ("the lane has less quota than is to be split off, or the taker no two names",
                        "there is less quota than is to be split off"),
    "STILL_WALKING": ("the lane has clients inside: let them out by renamer_step or renamer_sweep",
                      "the lane has clients inside"),
    "NOBODY_THERE": ("no client of the lane is there: renamer_lowest says on which wire one is",
                     "no client of the lane is there"),
    "LANES_MISSING": ("other lanes have quota, names or clients of the floor: hand them back and join them",
                      "other lanes have quota, names or clients of the floor"),
    "NOTHING_BACK": ("no lane of the floor was handed back",) * 2,
    "SIZE": ("the array has another size than what is to be written into it",
             "a slice has another size than what is to be written into it"),
    "CARRIED": ("too many clients came before: 2147483648 at most",) * 2,
    "LANES_THERE": ("other lanes of the floor are there still, with nothing of it: hand them back",
                    "other lanes of the floor are there still, with nothing of it"),
}


def code(path):
    """A text without its comments."""
    return COMMENT.sub("", path.read_text())


def rust_code():
    return "".join(code(path) for path in sorted((RUST / "src").glob("*.rs")))


def crate_code():
    return "".join(code(path) for path in (it for crate in CRATES for it in sorted(crate.glob("**/*.rt"))))


def plain(name):
    """The name of a struct without the prefix of the library, by which no two structs differ: handles are one type."""
    name = re.sub(r"^(renamer_|raw)", "", name.lower())
    return "handle" if name in ("lane", "quiet", "taker", "handle") else name


def pieces(text):
    """The parameters of a call, apart."""
    return [piece.strip() for piece in text.split(",") if piece.strip() not in ("", "void")]


# ---- calls

def c_type(parameter):
    """The type of a parameter in C, without the parameter's name."""
    kind, star = re.fullmatch(r"(.*?)\s*(\*?)\s*\w+", parameter, re.S).groups()
    const = kind.startswith("const ")
    name = OF_C.get(kind.removeprefix("const "), plain(kind.removeprefix("const ")))
    return f"*{'const' if const else 'mut'} {name}" if star else name


def header_calls():
    found = re.findall(r"^(?:RENAMER_\w+ )?(\w+|const char \*) ?(renamer_\w+)\(([^)]*)\)", code(HEADER), re.M)
    return {name: ([c_type(one) for one in pieces(taken)], OF_C[back]) for back, name, taken in found}


def rust_type(kind):
    """The types that C passes for one of Rust."""
    kind = " ".join(kind.split())
    pointer = re.fullmatch(r"\*(const|mut) (\w+)", kind)
    slice_of = re.fullmatch(r"&(mut )?\[(\w+)\]", kind)
    reference = re.fullmatch(r"&(mut )?(\w+)", kind)
    if pointer:
        return [f"*{pointer[1]} {plain(pointer[2])}"]
    if slice_of:
        return [f"*{'mut' if slice_of[1] else 'const'} {plain(slice_of[2])}", "usize"]
    if reference:
        return [f"*{'mut' if reference[1] else 'const'} {plain(reference[2])}"]
    return [kind]


def rust_call(taken, back):
    kinds = [one.split(":", 1)[1].strip() for one in pieces(taken)]
    return [part for kind in kinds if kind != "Global" for part in rust_type(kind)], back or None


def rust_calls():
    block = re.search(EXTERN, code(RUST / "src" / "raw.rs"), re.M | re.S)
    found = re.findall(r"fn (renamer_\w+)\(([^)]*)\)(?: -> (\w+))?;", block[1] if block else "")
    return {name: rust_call(taken, back) for name, taken, back in found}


def crate_calls():
    """The exports of the proved crate. Those that only ask take `&mut Handle` too, since the checker takes no other handle
    of C that can be read. Which these are header and Rust crate say alike."""
    found = re.findall(r'extern "C" fn (renamer_\w+)\(([^)]*)\)\s*(?:-> (\w+))?', crate_code())
    return {name: rust_call(taken, back) for name, taken, back in found}


def by_whichever_handle(calls):
    """The calls, with each handle as one that may be changed."""
    return {name: ([one.replace("*const handle", "*mut handle") for one in taken], back)
            for name, (taken, back) in calls.items()}


def symbols(archive):
    """What the archive defines for others, and what it wants of them."""
    listed = subprocess.run(["nm", "-g", str(archive)], capture_output=True, text=True, check=True).stdout
    words = [line.split() for line in listed.splitlines() if line]
    defined = {line[-1] for line in words if len(line) == 3}
    return defined, {line[-1] for line in words if len(line) == 2 and line[0] == "U"}


def symbols_for_all(shared):
    """What a shared library shows, with its versions."""
    listed = subprocess.run(["nm", "-D", "--defined-only", str(shared)], capture_output=True, text=True, check=True).stdout
    return {line.split()[-1] for line in listed.splitlines()}


def said_to_be_wanted():
    """What docs/EMBEDDING.md says that the archive wants of the C library."""
    said = re.search(r"The archive wants (.*?) of the C library", (ROOT / "docs" / "EMBEDDING.md").read_text())
    return set(re.findall(r"`(\w+)`", said[1])) if said else set()


# ---- structs and numbers

def header_structs():
    found = re.findall(r"typedef struct \w+ \{([^}]*)\} (\w+);", code(HEADER))
    fields = {plain(name): re.findall(r"(\w+) (\w+);", fields) for fields, name in found if plain(name) != "handle"}
    return {name: [(field, OF_C[kind]) for kind, field in both] for name, both in fields.items()}


def rust_structs(text):
    found = re.findall(r"#\[repr\(C\)\]\s*(?:#\[[^\n]*\]\s*)*pub(?:\(crate\))? struct (\w+) \{([^}]*)\}", text)
    return {plain(name): re.findall(r"(\w+):\s*(\w+)", fields) for name, fields in found if plain(name) != "handle"}


def statuses_of_header():
    return {name: int(number) for name, number in re.findall(r"^\s*RENAMER_(\w+) = (\d+)", code(HEADER), re.M)}


def snake(name):
    return re.sub(r"(?<!^)(?=[A-Z])", "_", name).upper()


def wrong_numbers():
    """The numbers of the header that the proved crate or the Rust crate has otherwise, or has not."""
    header, wrong = statuses_of_header(), []
    crate = {snake(name): int(number) for name, number in re.findall(r"Refusal::(\w+) => (\d+),", crate_code())}
    crate |= {snake(name): int(number) for number, name in re.findall(r"(\d+) => Kind::(\w+),", crate_code())}
    crate |= {name: int(number) for name, number in re.findall(r"const (\w+): u32 = (\d+);", crate_code())}
    rust = {snake(name): int(number) for name, number in re.findall(r"^    (\w+) = (\d+),", rust_code(), re.M)}
    for name, number in header.items():
        if crate.get({"NONE": "NOTHING"}.get(name, name)) != number:
            wrong.append(f"{name} is {number} in the header, and {crate.get(name)} in the proved crate")
        if rust.get(name) != number and name not in ("DONE", "NONE"):
            wrong.append(f"{name} is {number} in the header, and {rust.get(name)} in the Rust crate")
    wrong += [f"{name} of the Rust crate is not in the header" for name in rust.keys() - header.keys()]
    return wrong


def wrong_limits():
    """The limits that header or Rust crate has otherwise, or has not."""
    found = {"the header": re.findall(r"#define RENAMER_(MOST_\w+) (\d+)", code(HEADER)),
             "the Rust crate": re.findall(r"const (MOST_\w+): u64 = ([\d_]+);", rust_code())}
    limits = {where: {name: int(number) for name, number in both} for where, both in found.items()}
    return [f"the limits are {own} in {where}" for where, own in limits.items() if own != LIMITS]


# ---- names and texts

def wrong_objects():
    """What the header for C++ has under another name than that for C, or has not."""
    names = re.findall(r"^    (\w+) = RENAMER_(\w+)", code(OBJECTS), re.M)
    wrong = [f"{own} is RENAMER_{name} in renamer.hpp" for own, name in names if own.upper() != name]
    missing = statuses_of_header().keys() - {name for _, name in names}
    return [*wrong, *(f"renamer.hpp has no {name.lower()}" for name in sorted(missing))]


def wrong_texts():
    """What is said of statuses otherwise than TEXTS has it."""
    c = dict(re.findall(r'case RENAMER_(\w+): return "([^"]*)";', HEADER.with_name("explain.c").read_text()))
    rust = re.findall(r'Error::(\w+) => \{?\s*(?:out\.write_str\(|write!\(out, )"([^"]*)"\)', rust_code())
    rust = {snake(name): re.sub(r"\{(\w+)\}", lambda limit: str(LIMITS[limit[1]]), text) for name, text in rust}
    wanted = {name: text for name, (_, text) in TEXTS.items() if text}
    return [*differences("the text of", c, {"TEXTS": {name: text for name, (text, _) in TEXTS.items()}}),
            *differences("the text in Rust of", rust, {"TEXTS": wanted})]


def differences(what, header, others):
    """What the header has and another has otherwise, or has not, and the reverse."""
    for where, other in others.items():
        for name in sorted(header.keys() | other.keys()):
            if header.get(name) != other.get(name):
                yield f"{what} {name}: {header.get(name)} in the header, {other.get(name)} in {where}"


def wrong(archive, shared):
    """All that does not agree."""
    calls, structs = header_calls(), header_structs()
    if not calls or not structs:
        return ["the header has no call, or no struct"]
    both = {name: call for name, call in calls.items() if name != ONLY_IN_C}
    found = [*differences("call", both, {"the Rust crate": rust_calls()})]
    found += differences("call", by_whichever_handle(both), {"the proved crate": by_whichever_handle(crate_calls())})
    others = {"the proved crate": rust_structs(crate_code()), "the Rust crate": rust_structs(rust_code())}
    found += differences("struct", structs, others)
    defined, wanted = symbols(archive)
    found += [f"the archive shows {name}, and the header does not" for name in sorted(defined - calls.keys())]
    found += [f"the archive has no {name}" for name in sorted(calls.keys() - defined)]
    versioned = {f"{name}@@RENAMER_1" for name in calls}
    found += [f"{name}: only the header or the shared library has it" for name in sorted(symbols_for_all(shared) ^ versioned)]
    found += [f"{name}: the archive wants it, or docs/EMBEDDING.md says so" for name in sorted(wanted ^ said_to_be_wanted())]
    return [*found, *wrong_numbers(), *wrong_limits(), *wrong_objects(), *wrong_texts()]
