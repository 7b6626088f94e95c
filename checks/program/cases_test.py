"""Tries the reader of cases (checks/program/cases.py) at each line that a table may have, and the choice of cases by
words (checks/chosen.py). `wrong` names what they take for another.
"""
import cases
from chosen import NoCase, chosen

# A table, and the values that differ from those of a new case, by the rules at the head of checks/program/cases.table.
READ = [
    ("case a: run --width 2\n", {"words": ["run", "--width", "2"]}),
    ("case a\n\n# no line\nstatus 3\nstack 5\n", {"status": 3, "stack": 5}),
    ("case a\nthreads 7\nstack 128\nspace 9\n", {"threads": 7, "stack": 128, "space": 9}),
    ("case a\nthreads 20 refused\n", {"threads": 20, "refused": True}),
    ("case a\ngrowths 5\nbytes 60\nwrites 7\nspares 2\n", {"growths": 5, "bytes": 60, "writes": 7, "spares": 2}),
    ("case a\nerror_writes 1\nby the script\n", {"error_writes": 1, "by_script": True}),
    ("case a: number\n", {"tool": "number"}),
    ("case a: number --b c\n", {"tool": "number", "words": ["--b", "c"]}),
    ("case a\ninterrupted\n", {"interrupted": True}),
    ("case a\n< a b\n<\n<- c\\xff\\r\n", {"given": b"a b\n\nc\xff\r"}),
    ("case a\n< 2*x\\ny\n", {"given": b"x\ny\nx\ny\n"}),
    ("case a\n< 3#1,&\n<< 2+&,& 1* z\n", {"given": b"1,0\n1,1\n1,2\n1,1\n2,2\n\nz\n"}),
    ("case a\n< 2x2#@,&\n", {"given": b"1,0\n1,1\n2,0\n2,1\n"}),
    ("case a\n>> @../VERSION\n", {"wanted_output": (cases.ROOT / "VERSION").read_bytes()}),
    ("case a\n> one\n>> 2*two x\n! bad\n", {"wanted_output": b"one\ntwo\ntwo\nx\n", "wanted_errors": b"bad\n"}),
    ("case a\noutput open\nerrors open\n", {"open_output": True, "open_errors": True}),
    ("case a\noutput full\nerrors closed\ninput folder\n", {"output": "full", "errors": "closed", "input": "folder"}),
    ("case a\ninput pipe\n", {"input": "pipe"}),
    ("case a\nerrors with one line\n", {"open_errors": True, "error_lines": ["one line"]}),
    ("case a\n? x y\nlacks z\n", {"open_output": True, "texts": ["x y"], "unwanted_texts": ["z"]}),
    ("case a\n! renamer: flaw: x\n", {"wanted_errors": b"renamer: flaw: x\n", "status": 4}),
    ("case a\n! renamer: memory\nstatus 1\n", {"wanted_errors": b"renamer: memory\n", "status": 1}),
    ("refuses run now\n", {"name": "to refuse run now", "words": ["run", "now"], "open_errors": True, "status": 2}),
    ("refuses run x with go\n", {"name": "to refuse run x with go", "words": ["run", "x"], "open_errors": True,
                                 "error_lines": ["go"], "status": 2}),
    ("refuses run x ! no x\n", {"name": "to refuse run x ! no x", "words": ["run", "x"], "status": 2,
                                "wanted_errors": b"no x\n"}),
    ("fails run < a b ! record 1: B\n", {"name": "to fail at run < a b ! record 1: B", "words": ["run"], "status": 1,
                                         "given": b"a\nb\n", "wanted_errors": b"renamer: record 1: B\n"}),
    ("fails run <pipe a ! memory\n", {"name": "to fail at run <pipe a ! memory", "words": ["run"], "status": 3,
                                      "input": "pipe", "given": b"a\n", "wanted_errors": b"renamer: memory\n"}),
    ("fails number < a ! memory\n", {"name": "to fail at number < a ! memory", "tool": "number", "status": 3,
                                     "given": b"a\n", "wanted_errors": b"number: memory\n"}),
    ("unwritten full run < a\n", {"name": "to write full run < a", "words": ["run"], "status": 3, "output": "full",
                                  "given": b"a\n", "wanted_errors": b"renamer: write after 0 bytes\n"}),
    ("ends 1 full closed run < a\n", {"name": "to end with 1 full closed run < a", "words": ["run"], "status": 1,
                                      "output": "full", "errors": "closed", "given": b"a\n"}),
    ("prints check --width=2 < a,b,c 1,7,0\n", {
        "name": "to print check --width=2 < a,b,c 1,7,0", "words": ["check", "--width=2"], "given": b"a,b,c\n1,7,0\n",
        "wanted_output": b"epoch 1 clients 1 counts 1 0\ntight epochs 1 grants 1\n"}),
    ("helps help run\n", {"name": "to help with help run", "words": ["help", "run"], "open_output": True,
                          "texts": ["Usage: renamer"]}),
]
# Tables that are refused: a line that stands in no case, and lines that mean nothing.
REFUSED = ["status 1\n", "case a\nword run\n", "case a\n<% x\n", "case a\noutput loud\n", "case a\nby hand\n", "case\n",
           "fails run <loud a ! b\n"]
# Words, and which of the names one_two, two and a/three they choose; None if they are refused.
CHOSEN = [([], "one_two two a/three"), (["two"], "one_two two"), (["a/", "one"], "one_two a/three"),
          (["two", "four"], None), ([""], "one_two two a/three")]


def wrong_choices():
    """Each choice of names by words that is another."""
    for words, wanted in CHOSEN:
        try:
            names = " ".join(name for name, _ in chosen([("one_two", 1), ("two", 2), ("a/three", 3)], words))
        except NoCase:
            names = None
        if names != wanted:
            yield f"the words {words} choose {names}"


def wrong():
    """Each table that is read as another, or is not refused, and each choice that is another."""
    found = list(wrong_choices())
    for table, values in READ:
        case = cases.Case(**{"name": "a", **values})
        if cases.read(table) != [case]:
            found.append(f"it reads another case: {table!r}")
    if [case.name for case in cases.read("case a\n> x\ncase b\nrefuses c\n")] != ["a", "b", "to refuse c"]:
        found.append("it reads other cases of three")
    if [case.name for case in cases.read("helps {a b|c} {|d}{}\n")] != [
            f"to help with {name}" for name in ("a b a b", "a b da b", "c c", "c dc")]:
        found.append("it reads other cases of one row")
    for table in REFUSED:
        try:
            cases.read(table)
            found.append(f"it takes: {table!r}")
        except cases.NoCase:
            pass
    return found
