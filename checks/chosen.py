"""Which of its cases `all` runs: with words, those whose names have one of them. And rows that stand for several."""
import re

# What stands in a row for each of these texts.
EITHER = re.compile(r"\{([^{}]*\|[^{}]*)\}")


class NoCase(Exception):
    """A word that stands in no name."""


def chosen(cases, words):
    """Of some cases, each with its name first, those whose names have one of the words; without words all."""
    cases = list(cases)
    for word in words:
        if not any(word in name for name, *_ in cases):
            raise NoCase(f"no case has {word} in its name")
    return [case for case in cases if not words or any(word in case[0] for word in words)]


def rows_of(row):
    """A row with each text of {TEXT|TEXT|..} in turn, and with the same one for {}."""
    either = EITHER.search(row)
    for text in either[1].split("|") if either else ():
        yield from rows_of((row[: either.start()] + text + row[either.end() :]).replace("{}", text))
    if not either:
        yield row
