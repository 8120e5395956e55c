#!/usr/bin/env python3
"""Gives the definitions, lemmas and fields of this repository's specs/ and proofs/ names in snake case.

usage: python3 tools/snake_names.py [--list]     at the top of the repository, once, right after the kit's port.py

Only names that the repository itself declares are turned: hyphens and inner capitals become underscores, in .antt files,
in the clauses of .rt files and in docs. Names that Rattle makes (goals, labels, the fields of a goal's record) and names of
libraries stay. A name that would fall together with another one stays, and is listed.
"""
import os
import re
import sys

WORD = re.compile(r"[A-Za-z_][A-Za-z0-9_']*(?:-[A-Za-z0-9_']+)*")
MARKS = r"(?:(?:pub|abbrev|unfoldable|open|instance)\s+)*"
SIGNED = re.compile(r"^\s*" + MARKS + r"([A-Za-z_][^\s:(){}]*(?:\s+[A-Za-z_][^\s:(){}]*)*)\s+:\s")
RECORD = re.compile(r"^\s*(?:pub\s+)?(?:record|data)\s")
GENERATED = ("Answers.antt", "Invariants.antt", "Choices.antt", "Proof.antt")
# A definition takes the name in snake case; a lemma that would fall together with it says more of what it states.
# The second part limits a renaming to one crate.
APART = {
    ("answers-told", ""): "answers_are_told",
    ("both-sides", ""): "on_both_sides",
    ("blocks-text", ""): "blocks_text_is",
    ("count-text", ""): "count_text_is",
    ("day-text", ""): "day_text_is",
    ("hours-text", ""): "hours_text_is",
    ("order-text", ""): "order_text_is",
    ("orders-text", ""): "orders_text_is",
    ("point-text", ""): "point_text_is",
    ("heldIn", ""): "held_count",
    ("in-table", ""): "in_table_is",
    ("of-table", ""): "of_table_is",
    ("judged-by", ""): "judged_by_is",
    ("post-answer", ""): "post_answer_is",
    ("posts-after", ""): "posts_after_is",
    ("price-over", ""): "price_over_ladder",
    ("rounds-of", ""): "rounds_of_fix",
    ("since-fix", ""): "since_fix_told",
    ("filled_on", "history"): "filled_on_side",
    ("none_left", "day"): "none_offered",
    ("none_left", "report"): "none_answered",
    ("settled_at", "curves"): "settled_price",
    ("settled_at", "clearing"): "settled_price",
}
KEPT_WORDS = {"data", "record", "where", "module", "mod", "use", "pub", "abbrev", "unfoldable", "let", "in", "open"}


def files(suffixes):
    for root in ("crates", "docs", "README.md"):
        if os.path.isfile(root):
            yield root
            continue
        for folder, dirs, names in os.walk(root):
            dirs[:] = sorted(d for d in dirs if d not in ("out", "target", "must-fail", "data"))
            for name in sorted(names):
                if name.endswith(suffixes):
                    yield os.path.join(folder, name)


def by_hand(path):
    """A file of specs/ or proofs/ in which the repository declares names; not one whose names Rattle asks for."""
    parts = path.split(os.sep)
    if not path.endswith(".antt") or "docs" in parts[:1]:
        return False
    inside = os.path.basename(path) in GENERATED and parts[2] == "proofs" and len(parts) > 4
    return not inside


def snake(name):
    name = name.replace("-", "_")
    name = re.sub(r"(?<=[a-z0-9])(?=[A-Z])", "_", name)
    return name.lower() if not re.match(r"^[A-Z]", name) else name


def declared():
    found = {}
    for path in files((".antt",)):
        if not by_hand(path):
            continue
        with open(path, encoding="utf-8") as f:
            for line in f:
                text = line.split("--")[0]
                if RECORD.match(text):
                    continue
                m = SIGNED.match(text)
                if not m:
                    continue
                for name in m[1].split():
                    if WORD.fullmatch(name) and name not in KEPT_WORDS:
                        found.setdefault(name, set()).add(path)
    return found


def imported_from_kit():
    """Names that files here import from a library that is not of the repository."""
    own = {c for c in os.listdir("crates")}
    names = set()
    use = re.compile(r"\buse\s+((?:Rattle\.)?([\w']+)[\w.']*)\.\{([^}]*)\}")
    for path in files((".antt", ".rt")):
        with open(path, encoding="utf-8") as f:
            for m in use.finditer(f.read()):
                first = m[1].split(".")
                crate = first[1] if first[0] == "Rattle" and len(first) > 1 else first[0]
                if crate not in own:
                    for item in m[3].split(","):
                        names.add(item.split(" as ")[0].strip())
    return names


def main():
    own = declared()
    foreign = imported_from_kit()
    turned, kept = {}, []
    apart = {name: new for (name, crate), new in APART.items() if not crate}
    limited = {name for name, crate in APART if crate}
    taken = (set(own) - limited) | foreign
    for name in sorted(own):
        new = apart.get(name, snake(name))
        if new == name or name[0].isupper():
            continue
        if name in foreign:
            kept.append(f"{name}: a library's name too")
        elif (new in taken and new not in limited) or new in turned.values():
            kept.append(f"{name}: {new} stands already")
        else:
            turned[name] = new
    if "--list" in sys.argv:
        for name, new in turned.items():
            print(name, new)
        print("\n".join("kept " + k for k in kept))
        return
    word = re.compile(r"(?<![A-Za-z0-9_'·-])(" + WORD.pattern + r")(?![A-Za-z0-9_'])")
    changed = 0
    for path in files((".antt", ".rt", ".md")):
        with open(path, encoding="utf-8") as f:
            text = f.read()
        crate = path.split(os.sep)[1] if os.sep in path else ""
        here = turned | {name: new for (name, only), new in APART.items() if only == crate}
        if path.endswith(".md"):
            new = re.sub(r"`[^`\n]*`", lambda m: word.sub(lambda w: here.get(w[1], w[1]), m[0]), text)
        else:
            new = word.sub(lambda w: here.get(w[1], w[1]), text)
        if new != text:
            changed += 1
            with open(path, "w", encoding="utf-8") as f:
                f.write(new)
    print(f"{len(turned)} names turned, {changed} files changed")
    print("\n".join("kept " + k for k in kept))


main()
