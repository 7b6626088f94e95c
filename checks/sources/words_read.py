"""Reads a source as the compiler does, without comments, texts and what is ghost: its words, and its paths to std and to
crates of the kit."""
import collections
import functools
import re

import words_allowed as allowed

READ = re.compile(r"""
    \s+ | //[^\n]* | (?P<comment>/\*)
    | (?P<text>[bc]?r(?P<marks>\#*)".*?"(?P=marks) | [bc]?"(?:\\.|[^"\\])*" | b?'(?:\\(?:x\w\w|u\{\w+\}|.)|[^\\'\n])')
    | (?P<word>'?[A-Za-z_]\w* | :: | \S)
""", re.S | re.X)
NAME = re.compile(r"[A-Za-z_]\w*$")
# What exports a function to C, up to its name, with " for a text.
EXPORT = ["#", "[", "unsafe", "(", "no_mangle", ")", "]", "pub", "extern", '"', "fn"]
# The keywords after which stands antt: names that are used, or a clause or an item in braces, with `by` in others.
GHOST = {"ensures", "ghost", "requires"}
USED = re.compile(r"\s+use\s[^;]*;")
BEGUN = re.compile(r"\*?\s*(\w+\s*[=:]?\s*)?\{")
BRACES = re.compile(r"[{}]")
MORE = re.compile(r"\s*by\s*\{")
# By what antt would hide more from this reader than from the compiler: a comment, and a text of more than one sign.
SIGN = re.compile(r'"\\?[^"{}\n]"')
HIDES = re.compile(r'--|\{-|//|/\*|"')


class Hidden(Exception):
    """What a source has that could hide more of it."""


def end_of_comment(text, at):
    """Where a comment ends that begins there: comments may have others inside."""
    depth = 0
    for found in re.compile(r"/\*|\*/").finditer(text, at):
        depth += 1 if found.group() == "/*" else -1
        if depth == 0:
            return found.end()
    return len(text)


def end_of_braces(text, at):
    """Where the braces end that began before."""
    depth = 1
    for found in BRACES.finditer(text, at):
        depth += 1 if found.group() == "{" else -1
        if depth == 0:
            return found.end()
    return len(text)


def end_of_ghost(text, at):
    """Where what is ghost ends, whose keyword ends there."""
    used, begun = USED.match(text, at), BEGUN.match(text, at)
    if not used and not begun:
        raise Hidden("a ghost item without braces")
    end = used.end() if used else end_of_braces(text, begun.end())
    while more := not used and MORE.match(text, end):
        end = end_of_braces(text, more.end())
    if hides := HIDES.search(SIGN.sub("", text[at:end])):
        raise Hidden(f"{hides.group()} in what is ghost")
    return end


@functools.cache
def words_of(text):
    """The words and signs of a source, with " for a text."""
    words, at = [], 0
    while at < len(text):
        found = READ.match(text, at)
        at = end_of_comment(text, at) if found["comment"] else found.end()
        if found["word"] in GHOST:
            at = end_of_ghost(text, at)
        elif found["text"] or found["word"]:
            words.append(found["word"] or '"')
        if words[-len(EXPORT) :] == EXPORT:
            words[-len(EXPORT) :] = ["pub", "fn"]
    return tuple(words)


def leaves(words, at, before):
    """The paths that go on there from what stands before them, and where they end."""
    if words[at] == "{":
        found, at = [], at + 1
        while words[at] != "}":
            below, at = leaves(words, at, before)
            found += below
            at += words[at] == ","
        return found, at + 1
    path = before if words[at] == "self" else f"{before}::{words[at]}"
    return leaves(words, at + 2, path) if words[at + 1] == "::" and words[at + 2] != "<" else ([path], at + 1)


def paths_in(words):
    """The paths in it to std and to crates of the kit, also by a module of std that a `use` brought in."""
    words, at = (*words, ";", ";", ";"), 0
    while at < len(words):
        head = words[at] if words[at] in allowed.LIBRARIES else allowed.MODULES.get(words[at])
        if head and words[at + 1] == "::":
            found, at = leaves(words, at + 2, head)
            yield from found
        else:
            at += 1


@functools.cache
def counts_of(text):
    """How often each word stands in a source, also with the dot or the colons before it and the type before these, and
    each path."""
    words = words_of(text)
    times = collections.Counter(paths_in(words))
    for at, word in enumerate(words):
        before, first = words[at - 1] if at else "", words[at - 2] if at > 1 else ""
        times[word] += 1
        if before in (".", "::", "*"):
            times[before + word] += 1
        if before == "::" and first[:1].isupper():
            times[f"{first}::{word}"] += 1
    return times


@functools.cache
def aliases_in(text):
    """The names that a source gives to types with a word that is shared."""
    words = (*words_of(text), ";")
    return {words[at + 1] for at, word in enumerate(words)
            if word == "type" and allowed.SHARED & set(words[at : words.index(";", at)])}


@functools.cache
def refused_in(text):
    """What may stand in no source: a macro or an attribute that is not listed, and another name for what is used."""
    words, wrong, is_use = words_of(text), [], False
    for at, word in enumerate(words):
        before, after = words[at - 1] if at else "", words[at + 1] if at + 1 < len(words) else ""
        is_use = word == "use" or is_use and word != ";"
        if is_use and word in ("as", "*"):
            wrong.append(f"{before} {word} {after}")
        if word == "!" and NAME.match(before) and after and after in "([{" and before not in allowed.MACROS:
            wrong.append(f"{before}!")
        if word == "[" and "#" in (before, words[at - 2] if before == "!" else "") and after not in allowed.ATTRIBUTES:
            wrong.append(f"#[{after}]")
    return wrong
