"""What may stand in the sources of the program and of the library, and how often: see no_other_word."""
import re

ANY = 1_000_000
# The crates of the kit that any crate may use, and those that one may.
KIT_OF_ALL = {"clap", "csv", "indexmap", "itoa", "thiserror"}
KIT_OF = {"cn_floor": {"atomic_table"}, "cn_walk": {"core"}, "cn_handles": {"counted_slot"}}
LIBRARIES = KIT_OF_ALL.union(*KIT_OF.values(), {"core", "std"})
# Modules of std that a `use` may bring in: paths go on by their names.
MODULES = {name: f"std::{name}" for name in ("env", "fmt", "io", "mem", "thread")}
# The paths of any crate: nothing that threads share, and no wait. Of a path that ends in `::` all that is below.
PATHS = {
    "clap::", "csv::", "indexmap::", "itoa::", "thiserror::", "std::fmt::",
    "std::alloc::AllocError", "std::alloc::Allocator", "std::alloc::Global", "std::collections::LinkedList", "std::fmt",
    "std::hash::BuildHasher", "std::hash::Hasher", "std::hash::RandomState", "std::hash::RandomState::new", "std::io",
    "std::io::Error", "std::io::ErrorKind::OutOfMemory", "std::io::Read", "std::io::Result", "std::io::Write",
    "std::marker::Brand", "std::marker::Model", "std::marker::PhantomData", "std::mem", "std::mem::replace",
    "std::mem::swap", "std::random::RandomSource", "std::sync::Wait", "std::thread::Threads",
}
# What is counted in each crate, after a dot or colons: a step on what threads share, an owner more of it, a floor that
# opens, and a lane that is split off.
STEP = re.compile(r"""(\.|::)(
    fetch_\w+ | compare_exchange\w* | exchange | load | load_new_seat | store | swap | swap_new_seat | peek | park\w*
    | wake\w* | turn | split_seat | join_seat
    | \w*clone\w* | concat | cycle | extend_from_slice | fill | make_mut | repeat\w* | resize\w* | strong_count
    | to_owned | to_vec | open\w* | split | split_off)$""", re.X)
# A call of the library, by its crate: it stands where it is made, and no other calls it.
CALL = re.compile(r"renamer_c renamer_\w+$")
# Types that are shared: a type that has another name by them is counted as they are.
SHARED = {"Arc", "AtomicU64", "Counted", "Snapshot", "Table"}
# What a crate may have beside PATHS, and how often at most: paths, words with a dot or colons before them, functions of
# a type, and words as they are. What one row has stands in no other crate. So a floor has one table and these steps on
# it, lanes these places, a network and a floor these owners, and ghost data is made here only.
MOST = {
    "cn_floor": {
        # The table, its kinds of steps, and the steps: four adds, two loads, a split and a join of seats.
        "atomic_table::Closed": ANY, "atomic_table::Join": 1, "atomic_table::Play": 1, "atomic_table::Seat": ANY,
        "atomic_table::Split": 1, "atomic_table::Table": 2, "atomic_table::TableRule": 1, "Table": 6, "Play": 7,
        "Join": 3, "Split": 3, "table_of": 3, "Counters::new": 1, ".shared": 10, ".fetch_add": 4, ".load": 2,
        ".split_seat": 2, ".join_seat": 2,
        # Seats, the posts that have them, which lanes have, and what is done by one.
        "Seat": ANY, ".seat": ANY, "Post": ANY, ".post": ANY, "::lay": 1, ".grant_one": 1, ".enter_all": 1,
        ".entered_by": 1, ".split_post": 1, ".join_post": 1, ".look_at_both_posts": 1, "make_way": ANY, ".let_walk": 2,
        # Lanes that are split off, and floors that open.
        ".split": 1, ".split_off": 1, "::open_words": 2,
        # The network, which several may own.
        "std::sync::Arc": ANY, "Arc": 9, "::try_clone": 1, "::shared": 2, ".share": 2, ".share_network": 2,
        # Ghost data, and the receipts.
        "std::snapshot::Snapshot": ANY, "Snapshot": 27, "Snapshot::of": 9, "of_one": 2,
    },
    # Takers, which have posts, and what is done by a post: the clients of a list, and names that are taken.
    "cn_lists": {"Post": ANY, ".post": ANY, "::lay": 1, ".grant_one": 1, ".enter_list": 1, ".let_by": 1,
                 ".entered_by": 1, ".split_post": 1, ".let_walk": 1, "open_for_takers": 2},
    "cn_walk": {
        # Threads with small stacks, and that each returns what its call does.
        "std::thread": ANY, "std::thread::Promise": ANY, "std::thread::scope": 1, "std::thread::scope_env": 1,
        "core::thread::Stack": ANY, "Stack": 2, "spawn_scoped_with": 1, "run_both": 3, "join_once": 3, "join_mut": 2,
        "std::snapshot::Snapshot": ANY, "Snapshot": 3, "Snapshot::of": 1,
        # Lanes that are split off, and floors that open.
        ".split": 1, "::open": 1, "::open_after": 1, "::open_on": 1,
    },
    "cn_renamer": {"join_mut": 2, ".split": 1,
                   # A fault's line, which is made before it is written.
                   "std::io::Cursor": ANY},
    "cn_texts": {".add": 2, "::open": 1, ".open_epoch": 2, "::swap": 1, ".resize": 1,
                  ".extend_from_slice": 1},
    "cn_bitonic": {".to_vec": 1},
    "cn_periodic": {".to_vec": 1},
    "cn_core": {".fill": 2, ".add": 1},
    "cn_exit": {".fill": 1},
    "cn_yard": {".resize": 2},
    "cn_epoch": {".turn": 1},
    # What the program gets from its system.
    "cn_streams": {"HostRuntime": 1, "std::env": ANY, "std::env::Env": ANY, "std::env::args": 1,
                   "std::io::ErrorKind": ANY, "std::io::IsTerminal": ANY},
    "renamer": {"HostRuntime": 1, "Input": 1, "Print": 1, "std::env::Env": ANY, "std::io::writer": 1,
                "std::process::ExitCode": ANY, "std::process::ExitCode::from": 1},
    "cn_handles": {
        # Places for lanes that were handed back, and how many are in which state.
        **{f"counted_slot::{name}": ANY for name in ("Claim", "Counted", "Fits", "FREE", "MARKED", "MOST_READERS",
                                                     "ONE_READER", "PRESENT", "TAKEN")},
        "Counted": 8, "Counted::new": 2, "OnePlace": 3, "RowSlot": 6, ".turn": 3, "turn_place": 4, "take_from": 3,
        "no_rows": 2, ".add": 4, ".subtract": 2, ".slot": 5, ".returns": 5,
        "Ended::after": 1, ".new_search": 2, ".search": 3, ".search_lane": 2, ".search_free": 1, "read_row": 3,
        "std::sync::atomic::AtomicU64": ANY, "AtomicU64": 13, "std::sync::atomic::Ordering::SeqCst": 5,
        ".load": 8, ".fetch_add": 4, ".fetch_sub": 3,
        # What was put there, and what was taken out, is ghost data.
        "std::snapshot::Snapshot": ANY, "Snapshot": 7, "Snapshot::of": 3,
        # Two grants of a slice of a lane's own.
        ".swap": 1,
        # Who goes there, and who owns a floor or a row.
        "std::sync::Arc": ANY, "Arc": 23, "FloorShare": 13, "::try_clone": 4, ".another_owner": 1,
        ".shared": 2, "with_places": 15, ".hand_back": 4, ".take_back": 3,
        # Lanes and takers that are split off, and floors that open.
        ".split": 2, ".split_off": 1, "::open": 2, "::open_after": 2, "::open_words": 2, "open_for_takers": 3,
        "::opening": 1,
        "std::ptr::null_mut": ANY, "unsafe": 5, "*mut": 7, "std::alloc::AllocFailed": ANY,
    },
}
# What stands so often, no more and no less, in the texts of a crate, or of a file of the library in C.
TEXTS = {
    "cn_handles/": {"const ROWS: usize = 26;": 1, "for at in 0..ROWS {": 2},
    "../library": {"--redefine-sym renamer_free=": 1, "--redefine-sym renamer_free_quiet=": 1,
                   "--redefine-sym renamer_free_taker=": 1, "--redefine-sym renamer_name_many=": 1,
                   "--redefine-sym renamer_name_list=": 1, "--redefine-sym renamer_grants=": 1,
                   "--redefine-sym renamer_counts=": 1, "--redefine-sym renamer_holders=": 1,
                   "--redefine-sym renamer_take_many=": 1, "redefine-sym": 9},
    "../bindings/c/explain.c": {"static": 0},
    "../bindings/c/free.c": {"static": 0},
    "../bindings/c/lists.c": {"static": 0},
    "../bindings/c/heap.c": {"static": 2, "static char nothing;": 1, "static struct got got(": 1},
}
# The crates of which functions may be proved by hand: such a proof may give ghost data any value.
BY_HAND = {"cn_handles"}
# The words that stand nowhere else: what shares, waits or names anew and needs no path, as it is of the language or of
# std's prelude.
NOWHERE = ("extern", "forever", "macro_rules", "static", "unsafe", "*mut", "*const", "CondvarTimeouts", "Eprint",
           "HostRuntime", "Input", "LibcRuntime", "Lock", "Print", "WaitMethods")
MACROS = {"format", "matches", "prove", "unreachable", "vec", "write", "writeln"}
ATTRIBUTES = {"cold", "derive", "error", "inline", "repr", "tactic"}
# How often a function of cn_handles that makes a lane, a taker or a place stands in the calls of the library: where it is
# brought in, and where it is called.
OF_HANDLES = {"open": 3, "open_after": 2, "open_takes": 2, "split": 2, "split_taker": 2, "hand_back": 2, "join": 2,
              "join_all": 2, "take_back": 2, "close": 2}
COUNTED = {*NOWHERE, *(what for row in MOST.values() for what in row)}


def is_path(what):
    """Whether it leads to std or a crate of the kit."""
    return what.partition("::")[0] in LIBRARIES and "::" in what


def most(crate, what, aliases):
    """How often a crate may have a path, or a word with what stands before it."""
    if crate == "renamer_c" and what in OF_HANDLES:
        return OF_HANDLES[what]
    anywhere = what in PATHS or what.startswith(tuple(below for below in PATHS if below.endswith("::")))
    is_counted = what in COUNTED or what in aliases or STEP.match(what) or is_path(what) and not anywhere
    return MOST.get(crate, {}).get(what, 0 if is_counted else 1 if CALL.match(f"{crate} {what}") else ANY)
