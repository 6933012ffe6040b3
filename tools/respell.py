#!/usr/bin/env python3
"""Respells the repository's own definitions and lemmas: words in snake case, with an underscore between them.

usage: tools/respell.py [--say]     at the top of the repository; --say writes nothing and lists what would change

It ran once, on what the toolchain's port script had left, and is kept to tell how the names came about: a second run would turn some names of its table APART again.
It turns the names that specs/ and proofs/ declare, wherever an .antt file, a clause or a `ghost use` says them: camelCase becomes snake_case, and in definitions of
specs/, constructors and fields a dash an underscore; in a lemma's name a dash stays, as it joins names. Names that come from the source (functions, types, fields),
those that the toolchain makes, strings, and the text of programs stay; must-fail edits were turned by hand. Where two names would fall together, APART says the other.
"""

import collections
import glob
import re
import sys

TOKEN = re.compile(r"[^\s(){}\[\],;.⌜⌝\"`]+")
DECLARED = re.compile(r"^(\s*)(?:(?:abbrev|unfoldable) )?(?:pub )?((?:[^\s(){}\[\],;.:=]+ )+): ?")
GENERATED = re.compile(r"/proofs/(?:[^/]+/)+(?:Proof|Answers|Invariants)\.antt$")
# proofs over the code's own text, whose names are the toolchain's
WALKS = re.compile(r"/proofs/(?:Gate|Lent|Passing)\w*\.antt$")
WORDS = {"let", "in", "use", "pub", "where", "record", "data", "module", "elim", "as", "abbrev", "unfoldable", "infixl", "infixr", "infix"}


def read(path):
    with open(path, encoding="utf-8") as f:
        return f.read()


def antt_files():
    return sorted(glob.glob("crates/*/specs/**/*.antt", recursive=True) + glob.glob("crates/*/proofs/**/*.antt", recursive=True))


def code_of(line):
    """A line without its comment."""
    return "" if line.lstrip().startswith("--") else line.split(" -- ")[0]


def declared():
    """The definitions (those of specs/, each abbrev or unfoldable, constructors and fields) and the lemmas."""
    definitions, lemmas = set(), set()
    for path in antt_files():
        if GENERATED.search(path) or WALKS.search(path):
            continue
        inside = None
        for line in read(path).splitlines():
            code = code_of(line)
            if not code.strip():
                continue
            indent = len(code) - len(code.lstrip())
            if inside is not None and indent <= inside:
                inside = None
            if re.match(r"\s*(pub )?(data|record) .* where$", code):
                inside = indent
                continue
            found = DECLARED.match(code)
            if not found:
                continue
            said = re.match(r"\s*(abbrev|unfoldable) ", code)
            names = {n for n in found.group(2).split() if n not in WORDS and "◌" not in n}
            if inside is not None or said or "/specs/" in path:
                definitions |= names
            else:
                lemmas |= names
    return definitions, lemmas - definitions


def snake(word):
    return re.sub(r"(?<=[a-z0-9])([A-Z])", lambda m: "_" + m.group(1).lower(), word)


# Names that would fall together with another of the repository's own.
APART = {
    "oddLength": "has_odd_length",
    "unorderedKinds": "has_unordered_kinds",
    "wrongAmounts": "has_wrong_amounts",
    "faultIf": "fault_of",
    "unlessRefused": "blank_if_refused",
    "lent-after": "lent_then",
    "no-variable": "without_variable",
    "time-fits": "fits_time",
    "transition-named": "named_of_transition",
    "after_holds": "after_holds_lem",
    "all_named": "all_named_lem",
    "every_holds": "every_holds_lem",
    "first_edge": "first_edge_lem",
    "homes_in": "homes_in_lem",
    "number_by": "number_by_lem",
    "step_fits": "step_fits_lem",
}


def respelled(name, lemma):
    if name in APART:
        return APART[name]
    if name[0].isupper():
        return name
    name = name.replace("getD", "get_or")
    return snake(name) if lemma else snake(name).replace("-", "_")


def source_names():
    """Words of the sources that a clause could mean: fields, parameters, functions."""
    found = set()
    for path in glob.glob("crates/*/src/**/*.rt", recursive=True):
        for line in read(path).splitlines():
            if line.lstrip().startswith(("//", "ghost use")):
                continue
            found |= set(re.findall(r"\b([a-z]\w*)\s*:(?!:)", line))
    return found


def mapping():
    definitions, lemmas = declared()
    used = set()
    for path in antt_files():
        for line in read(path).splitlines():
            used |= set(re.findall(r"[^\s(){}\[\],;⌜⌝\"`]+", code_of(line)))
    fields = source_names()
    turned, said = {}, []
    for name in sorted(definitions | lemmas):
        new = respelled(name, name in lemmas)
        if new == name:
            continue
        if new in fields:
            said.append(f"also a name of the sources: {name} -> {new}")
        if new in definitions or new in lemmas:
            said.append(f"also declared: {name} -> {new}")
        elif new in used:
            said.append(f"also a word: {name} -> {new}")
        turned[name] = new
    back = collections.defaultdict(list)
    for name, new in turned.items():
        back[new].append(name)
    for new, olds in back.items():
        if len(olds) > 1:
            said.append(f"fall together: {olds} -> {new}")
    return turned, lemmas, said


def turn(text, names, kept=()):
    """Each word; the path before the braces of a `use` stays, and so does a name of `kept` behind a dot."""
    begins = 0
    path = re.match(r"\s*(?:ghost )?(?:pub )?use [^{]*\{?", text)
    if path:
        begins = path.end()

    def word(m):
        name = m.group(0)
        if m.start() > 0 and m.string[m.start() - 1] == "." and name in kept:
            return name
        return names.get(name, name)

    return text[:begins] + TOKEN.sub(word, text[begins:])


def turn_comment(text, names):
    """In words for people only camelCase names and what stands between backticks."""
    text = re.sub(r"`[^`]*`", lambda m: turn(m.group(0), names), text)
    return TOKEN.sub(lambda m: names.get(m.group(0), m.group(0)) if re.search(r"[a-z][A-Z]", m.group(0)) else m.group(0), text)


def turn_antt(text, names, kept):
    out = []
    for line in text.split("\n"):
        if line.lstrip().startswith("--"):
            out.append(turn_comment(line, names))
        elif " -- " in line:
            code, comment = line.split(" -- ", 1)
            out.append(turn(code, names, kept) + " -- " + turn_comment(comment, names))
        else:
            out.append(turn(line, names, kept))
    return "\n".join(out)


CLAUSE = re.compile(r"\b(?:requires|ensures|ghost)\*?(?: \w+:?)? \{|\bghost use [^;]*;")


def turn_rt(text, names):
    out, at = [], 0
    while True:
        found = CLAUSE.search(text, at)
        if not found:
            out.append(text[at:])
            return "".join(out)
        out.append(text[at : found.start()])
        end = found.end()
        if text[found.end() - 1] == "{":
            depth = 1
            while depth:
                depth += {"{": 1, "}": -1}.get(text[end], 0)
                end += 1
        head = re.match(r"(?:requires|ensures|ghost)\*?(?: \w+:?)? \{", found.group(0))
        start = found.start() + (len(head.group(0)) if head else 0)
        out.append(text[found.start() : start])
        out.append(turn(text[start:end], names))
        at = end


def main(say):
    names, lemmas, said = mapping()
    print("\n".join(said))
    print(f"{len(names)} names")
    if say:
        for name, new in sorted(names.items()):
            print(f"  {name} {new}")
        return
    for path in antt_files():
        text = read(path)
        new = turn_antt(text, names, lemmas if GENERATED.search(path) else ())
        if new != text:
            with open(path, "w", encoding="utf-8") as f:
                f.write(new)
    for path in glob.glob("crates/*/src/**/*.rt", recursive=True):
        text = read(path)
        new = turn_rt(text, names)
        new = re.sub(r"(?m)^(\s*)//.*$", lambda m: turn_comment(m.group(0), names), new)
        if new != text:
            with open(path, "w", encoding="utf-8") as f:
                f.write(new)


main("--say" in sys.argv)
