"""Whether help shows the right numbers: limits, counts, statuses and fault lines.

The limits are those of the law `limits_are` (crates/cn_spec/src/laws.rt), and the statuses and the names of causes those
of the formats. A fault line is to be one of a case of checks/program/cases.table, whatever its numbers are.
"""
import pathlib
import re

ROOT = pathlib.Path(__file__).resolve().parents[2]
LAWS = ROOT / "crates" / "cn_spec" / "src" / "laws.rt"
TABLE = ROOT / "checks" / "program" / "cases.table"
# What each status means, by the words that texts have for it.
STATUSES = [
    r"done\b.*|the list is tight",
    r"the (input|batch|schedule|list) is refused",
    r"the command line is refused",
    r"not finished: no memory, (no arguments (or random numbers )?from the system, )?(or )?a write failed",
    r"the (grant )?list is not tight",
]
# Why a command of a schedule is refused.
REFUSALS = ["NoSuchEntry", "AlreadyIn", "EpochFull", "Stranger", "HasName M", "NotQuiet S"]
# What the long help of the program and of each job has: its numbers of two digits and more in their order, the limits
# by their names; its causes, in the order in which they are looked for; and its statuses.
IN_CAUSES = "64 MOST_DIGITS"
SHOWN = {
    "renamer": ("", "", [0, 1, 2, 3, 4]),
    "run": ("WIDTHS MOST_WORKERS MOST_HAND 64 MOST_CLIENTS MOST_RECORDS MOST_NAMED"
            f" {IN_CAUSES} MOST_CLIENTS MOST_NAMED MOST_RECORDS MOST_NAMED",
            "Read Header FieldCount EpochNumber ClientNumber EntryNumber EpochBackwards EntryRange Duplicate EpochFull"
            " BatchFull", [0, 1, 2, 3]),
    "check": (f"WIDTHS 64 MOST_RECORDS MOST_NAMED {IN_CAUSES} MOST_RECORDS MOST_NAMED",
              "Read Form DuplicateClient DuplicateName Gap", [0, 1, 2, 3, 4]),
    "replay": (f"WIDTHS 64 MOST_CLIENTS MOST_RECORDS {IN_CAUSES} MOST_RECORDS",
               "Read Header FieldCount Op ClientNumber WireNumber ScheduleFull", [0, 1, 2, 3]),
    "show": ("WIDTHS", "", [0, 2, 3]),
}


def limits():
    """The limits of the service, by name, as the law says them, and the widths of two digits and more."""
    law = re.search(r"^pub fn limits_are\(\)\n(.*?)^\{\}", LAWS.read_text(), re.M | re.S).group(1)
    found = {}
    for name, base, power in re.findall(r"\b([A-Z_]+) ≡ ([0-9_]+)(?: \^ ([0-9]+))?", law):
        found[name] = str(int(base) ** int(power or 1))
    widths = (2**level for level in range(1, int(found["MOST_LEVEL"]) + 1))
    return {**found, "WIDTHS": " ".join(str(width) for width in widths if width > 9)}


def wrong_in_statuses(statuses, ends):
    """Each status that means something else, and those that are missing or too many."""
    wrong = [f"status {number} is not: {words}" for number, words in statuses
             if number >= len(STATUSES) or not re.fullmatch(STATUSES[number], words, re.I | re.S)]
    return wrong + [f"the statuses are not {ends}"] * ([number for number, _ in statuses] != ends)


def without_numbers(line):
    return re.sub(r"\d+", "N", line)


def wrong_in_faults(lines):
    """Each fault line of help that the program has in no case, whatever its numbers are."""
    known = {without_numbers(line) for line in re.findall(r"! (?:renamer: )?(.*)$", TABLE.read_text(), re.M)}
    return [f"no case has the fault line: {line}" for line in lines
            if without_numbers(line.removeprefix("renamer: ")) not in known]


def wrong_in_help(job, shown):
    """What is wrong in the numbers, causes, statuses and fault lines of the help of a job, or of the program."""
    limit, (numbers, causes, ends) = limits(), SHOWN[job]
    wanted = " ".join(limit.get(word, word) for word in numbers.split())
    found = " ".join(re.findall(r"\d\d+", shown.prose + "\n".join(shown.causes)))
    wrong = [f"its numbers are not {wanted}, but {found}"] * (found != wanted)
    named = " ".join(line.split()[0] for line in shown.causes if line[2:3] != " ")
    wrong += [f"the causes are not: {causes}"] * (named != causes)
    wrong += [f"it does not say when a command is refused by {name}" for name in REFUSALS
              if job == "replay" and not re.search(rf"\b{name}\b", shown.prose)]
    return wrong + wrong_in_statuses(shown.statuses, ends) + wrong_in_faults(shown.faults)
