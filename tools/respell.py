#!/usr/bin/env python3
"""Brings this repository's own definitions and lemmas to the spelling of today's Rattle: words in snake case.

usage: python3 tools/respell.py [--list]      at the top of the repository, once, after port.py; --list prints the names alone

A definition, field or variable `atSendingEnd` becomes `at_sending_end`, a lemma `in-its-ranges` becomes `in_its_ranges`. A lemma that
would have a definition's name gets `_lem`. Types, modules, names of src/, C names and strings keep their spelling, and so does what the
library or Rattle itself names, and the paper's A, B, VNS and CVT in the worked examples. Names that would still fall together in one
file are printed, and nothing is written then.
"""
import os
import re
import sys

WORD = r"[^\s(){}\[\].,;:\"`λ«»/|]+"
# Fields of a record that share their name with a lemma elsewhere, or, the last, with a definition that its record cites.
FIELDS = {
    "open-run": "open_run",
    "on-track": "on_track",
    "in-turn": "in_turn",
    "is-accepted": "is_accepted",
    "fault1-confirmed": "fault1_confirmed",
    "measures-suffice": "measures_suffice",
    "under-way": "reversal_under_way",
}
RECORDS_IN = ("/specs/", "rules/proofs/Held.antt")
# Lemmas that port.py had given the name which a definition now gets.
LEMMAS = {"tail_of": "tail_of_lem", "entry_length": "entry_length_lem", "closed_after": "closed_after_lem", "ends_open": "ends_open_lem"}


def texts():
    for folder, dirs, files in os.walk("crates"):
        dirs[:] = sorted(d for d in dirs if d not in ("out", "data", "must-fail"))
        for name in sorted(files):
            if name.endswith((".rt", ".antt")):
                yield os.path.join(folder, name)


def read(path):
    with open(path, encoding="utf-8") as f:
        return f.read()


def snake(word):
    return re.sub(r"(?<=[a-z0-9'])([A-Z])|(?<=[A-Z])([A-Z](?=[a-z]))", lambda m: "_" + m.group(0), word).lower()


def is_camel(word):
    return re.fullmatch(r"[a-z]\w*[A-Z]\w*'*", word) is not None


def is_dashed(word):
    return re.fullmatch(r"[a-z][a-z0-9_]*(-[a-z0-9_A-Z]+)+'*", word) is not None


def proves_a_function(path):
    return os.path.basename(path) in ("Proof.antt", "Answers.antt", "Invariants.antt")


def top_names(path, text):
    """The names that an antt file declares at its top or in a module of it, but for those that Rattle asks for."""
    for m in re.finditer(r"(?m)^ *(?:abbrev |unfoldable )?(?:pub )?(?:abbrev |unfoldable )?(" + WORD + r") ?:(?!=)\s*(\S*)", text):
        name, kind = m.group(1), m.group(2)
        if proves_a_function(path) and (
            kind.startswith(("tie.", "goal.")) or name.endswith("-spec") or re.match(r"(returns|invariant|decreases)\b", name)
        ):
            continue
        yield name


def several_names(text):
    """The names that a line of a record or of a data type declares together."""
    for m in re.finditer(r"(?m)^ +(?:pub )?((?:" + WORD + r" )+" + WORD + r") ?:(?!=)", text):
        yield from m.group(1).split()


def imported(text):
    """The names that a file takes from elsewhere than this repository's crates."""
    own = set(os.listdir("crates"))
    for m in re.finditer(r"use ([\w.·+'\-]+?)\.\{([^}]*)\}", text):
        path = m.group(1).split(".")
        if path[0] == "Rattle" and len(path) > 1 and path[1] in own:
            continue
        for name in m.group(2).split(","):
            yield name.strip().split(" as ")[0]


def split_comment(path, line):
    mark = "--" if path.endswith(".antt") else "//"
    m = re.search(r"(?:^|(?<=\s))" + mark + r"(?:\s|$)", line)
    return (line, "") if m is None else (line[: m.start()], line[m.start() :])


def code(path, text):
    return "\n".join(split_comment(path, line)[0] for line in text.split("\n"))


def respelled(path, text, names, fields):
    here = names

    def word(m, line):
        w = m.group(0)
        after_dot = m.start() > 0 and line[m.start() - 1] == "."
        if w in LEMMAS and path.endswith(".antt") and not after_dot and "/proofs/" in path:
            return LEMMAS[w]
        if is_dashed(w) and after_dot and w not in fields:
            return w
        if w in FIELDS:
            declares = re.match(r" +(?:pub )?" + re.escape(w) + r" :", line) and any(r in path for r in RECORDS_IN)
            if after_dot or declares or re.match(r" = ", line[m.end() :]):
                return FIELDS[w]
        return here.get(w, w)

    lines = []
    for line in text.split("\n"):
        before, comment = split_comment(path, line)
        new = re.sub(WORD, lambda m: word(m, before), before)
        # prose has dashes too: there a lemma's name stands between backticks
        new_comment = re.sub(WORD, lambda m: here.get(m.group(0), m.group(0)) if is_camel(m.group(0)) else m.group(0), comment)
        new_comment = re.sub(r"`(" + WORD + r")`", lambda m: "`" + here.get(m.group(1), m.group(1)) + "`", new_comment)
        lines.append(new + new_comment)
    return "\n".join(lines)


def main():
    files = {p: read(p) for p in texts()}
    foreign = {n for t in files.values() for n in imported(t)}
    dashed, plain = set(), set()
    for path, text in files.items():
        if path.endswith(".antt"):
            for name in list(top_names(path, text)) + list(several_names(text)):
                (dashed if is_dashed(name) else plain).add(name)
    camels = {w for p, t in files.items() for w in re.findall(WORD, code(p, t)) if is_camel(w)} - foreign
    names = {w: snake(w) for w in camels}
    taken = set(names.values()) | plain
    for name in dashed - foreign:
        new = snake(name.replace("-", "_"))
        names[name] = new + "_lem" if new in taken else new
    fields = dashed - foreign

    fallen = []
    for path, text in files.items():
        if not path.endswith(".antt"):
            continue
        words = set(re.findall(r"(?<![.\w])" + WORD, re.sub(r"use [\w.·+'\-]+ as \w+|Rattle[\w.·+'\-]*", "", code(path, text))))
        seen = {}
        for w in sorted(words):
            new = LEMMAS.get(w) if w in LEMMAS else names.get(w, w)
            if new in seen:
                fallen.append((path, seen[new], w))
            seen[new] = w
    for f in fallen:
        print("falls together: %s: %s and %s" % f)
    if "--list" in sys.argv:
        for name in sorted(names):
            print(name, names[name])
        return
    if fallen:
        sys.exit(1)
    for path, text in files.items():
        new = respelled(path, text, names, fields)
        if new != text:
            with open(path, "w", encoding="utf-8") as f:
                f.write(new)


main()
