#!/usr/bin/env python3
"""Brings this repository's own definitions and lemmas to snake case, after port.py has run.

usage: python3 tools/respell.py [--list]      at the top of the repository, once

Functions and variables are in snake case, `perLeader` is `per_leader`, and so are the fields of records and constructors, `view-low` is `view_low`. In the
name of a lemma a dash joins two names, as in std. Types and modules keep theirs, and so does what Rattle names after the sources.
The pages of docs/ and README.md follow. `specs/Contracts.antt` becomes `specs/Clauses.antt`, since Rattle makes a module of the first name.
--list prints the names and changes nothing.
"""

import os
import re
import subprocess
import sys

# What would fall together with another name, or is of no one kind.
SPECIAL = {
    "Counts-as": "CountsAs",
    "getD-listed": "get_or-listed",
    "n-least": "n_at_least",
    "n-most": "n_at_most",
    "delta-least": "delta_at_least",
    "delta-most": "delta_at_most",
    "gamma-least": "gamma_at_least",
    "gamma-most": "gamma_at_most",
    "views-least": "views_at_least",
    "views-most": "views_at_most",
    "per-leader-least": "per_leader_at_least",
    "event-form": "from_event",
    "setup-form": "from_setup",
    "no-form": "from_nothing",
    "is-correct": "for_a_correct",
    "run-words": "words_of_run",
    "stored-as": "is_stored",
    "to-correct": "for_correct",
    "state-of": "tracked_state",
    "time-of": "time_told",
    "clock-of": "clock_told",
    "by-clock": "by_own_clock",
}
WORD = re.compile(r"[^\s(){}\[\],;.:\"`]+")
CAMEL = re.compile(r"^[a-z][\w'-]*[a-z0-9][A-Z][\w'-]*$|^[a-z][a-z0-9]*[A-Z][\w'-]*$")


def crates():
    return sorted(c for c in os.listdir("crates") if os.path.isdir(f"crates/{c}/src"))


def below(folder, ending):
    for d, ds, fs in os.walk(folder):
        ds[:] = sorted(x for x in ds if x not in ("out", "target", ".git"))
        for f in sorted(fs):
            if f.endswith(ending):
                yield os.path.join(d, f)


def is_function(path):
    """Whether a proof file is one function's, whose goals have the names that Rattle gives them."""
    return os.path.basename(path) in ("Proof.antt", "Answers.antt", "Invariants.antt")


def snake(name):
    return re.sub(r"(?<=[a-z0-9])([A-Z])", lambda m: "_" + m.group(1).lower(), name)


def sources(ending=".antt"):
    for c in crates():
        yield from below(f"crates/{c}", ending)


def named():
    """The names that change."""
    found = set()
    kit = set()
    own = "|".join(crates())
    kit_line = re.compile(r"^\s*(?:pub )?(?:ghost )?use (?!Rattle\.(?:%s)\.)(.*)" % own)
    for p in sources():
        with open(p, encoding="utf-8") as f:
            text = f.read()
        for line in text.splitlines():
            m = kit_line.match(line)
            if m:
                kit.update(WORD.findall(m.group(1)))
                continue
            if re.match(r"\s*(--|use |pub use |mod |pub mod |open |pub open )", line):
                continue
            found.update(w for w in WORD.findall(re.sub(r"--.*", "", line)) if CAMEL.match(w))
    names = {w: snake(w) for w in found}
    names.update({w: w.replace("-", "_") for w in set.union(*declared()) if "-" in w and not w.startswith("-")})
    return names | SPECIAL, kit


def turn(text, names, dotted):
    """The text with its names turned. A name behind a dot is turned if it is camel case or a field of a record of this repository."""

    def one(m):
        w = m.group(0)
        if w not in names:
            return w
        if m.start() and text[m.start() - 1] == "." and "-" in w and w not in dotted:
            return w
        return names[w]

    return WORD.sub(one, text)


def declared():
    """The fields of the records that this repository declares; and its functions that unfold, with the constructors of its data."""
    fields, functions = set(), set()
    for p in sources():
        if is_function(p):
            continue
        inside = None
        with open(p, encoding="utf-8") as f:
            for line in f:
                block = re.match(r"^\s*(?:pub\s+)?(record|data)\s", line)
                if block:
                    inside = fields if block.group(1) == "record" else functions
                elif re.match(r"^\S", line):
                    inside = None
                m = re.match(r"^\s*(?:pub\s+)?(?:abbrev|unfoldable)\s+(?:pub\s+)?([^\s(){}\[\]:,;.]+)", line)
                if m:
                    functions.add(m.group(1))
                m = re.match(r"^\s+(?:pub\s+)?([^\s(){}\[\]:,;.]+(?:\s+[^\s(){}\[\]:,;.]+)*)\s*:\s", line)
                if m and inside is not None:
                    inside.update(m.group(1).split())
    return fields, functions


def main(argv):
    names, kit = named()
    dotted, functions = declared()
    unfolding = dotted | functions
    if argv == ["--list"]:
        known = set()
        for p in sources():
            with open(p, encoding="utf-8") as f:
                for line in f:
                    known.update(WORD.findall(re.sub(r"--.*", "", line)))
        back = {}
        for old, new in sorted(names.items()):
            back.setdefault(new, []).append(old)
        for old, new in sorted(names.items()):
            note = ""
            if len(back[new]) > 1:
                note += f"  TOGETHER {back[new]}"
            if new in known:
                note += "  KNOWN"
            if new in kit:
                note += "  KIT"
            if old in kit:
                note += "  OLD-IN-KIT"
            print(old, new, note)
        return 0
    for c in crates():
        old = f"crates/{c}/specs/Contracts.antt"
        if os.path.exists(old):
            subprocess.run(["git", "mv", old, f"crates/{c}/specs/Clauses.antt"], check=True)
    clauses = lambda t: re.sub(r"(?<=specs[./])Contracts\b", "Clauses", re.sub(r"(?m)^(pub mod )Contracts$", r"\1Clauses", t))
    files = list(sources(".antt")) + list(sources(".rt"))
    for p in files:
        with open(p, encoding="utf-8") as f:
            text = f.read()
        turned = turn(clauses(text), names, dotted if is_function(p) else unfolding)
        if turned != text:
            with open(p, "w", encoding="utf-8") as f:
                f.write(turned)
    for p in list(below("docs", ".md")) + ["README.md"]:
        with open(p, encoding="utf-8") as f:
            text = f.read()
        turned = re.sub(r"`[^`\n]+`", lambda m: turn(clauses(m.group(0)), names, dotted), text)
        turned = clauses(turned)
        if turned != text:
            with open(p, "w", encoding="utf-8") as f:
                f.write(turned)
    return 0


if __name__ == "__main__":
    raise SystemExit(main(sys.argv[1:]))
