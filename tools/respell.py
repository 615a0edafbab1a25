#!/usr/bin/env python3
"""Brings the repository's own definitions and lemmas to one spelling: words in snake case, types and facts in upper camel case.

usage: python3 tools/respell.py [--list]      at the top of the repository, once, right after the kit's own scripts

Names of the library and names that Rattle makes for a proof keep their spelling; so do the functions of src/, strings, inputs and outputs.
Edits that must be refused are not touched. With --list it prints the names and changes nothing.
"""
import glob
import re
import sys

TOKEN = re.compile(r"[^\s(){}\[\];,.:=→λ×∙≡⌜⌝@\"«»`]+")
OWN = {line.split(":")[0].split()[0] for line in open("crates.txt") if line.strip()}
LEMMAS = glob.glob("crates/*/specs/*.antt") + glob.glob("crates/*/proofs/*.antt")
ANSWERS = [f for f in glob.glob("crates/*/proofs/**/*.antt", recursive=True) if f not in LEMMAS]
SOURCES = glob.glob("crates/*/src/**/*.rt", recursive=True)
# words of the library that were spelled otherwise when these names were made
WORDS = {"getD": "get_or"}
# members of a module of the library, which stand behind its name
LIBRARY = {"not-nil"}
# names that would fall together with another, or with a function of src/
OTHERWISE = {
    "against-thread": "against_one",
    "allGood": "all_good_bytes",
    "counters-count": "counters_count_lem",
    "countsOf": "declared_counts",
    "eventAt": "read_event",
    "files-are-read-exactly": "files_are_read_exactly_lem",
    "fitting-access": "fitting_access_of",
    "good-front": "good_front_lem",
    "got-events": "got_events_is",
    "in-range": "in_range_means",
    "is-access": "is_access_lem",
    "is-magic": "is_magic_lem",
    "is-write": "is_write_letter",
    "laidOut": "items_laid_out",
    "lines-follow": "lines_follow_lem",
    "lived-by": "lived_by_length",
    "locked-by": "locked_by_length",
    "map-ok": "map_ok_parts",
    "mayUncover": "can_uncover",
    "met-on": "meeting_on",
    "refusalLine": "refusal_text",
    "refuses-when-full": "refuses_when_full_lem",
    "regions-agree": "regions_agree_lem",
    "stamps-sum-up": "stamps_sum_up_lem",
    "totalsLine": "totals_text",
}


def text(f):
    with open(f, encoding="utf-8") as h:
        return h.read()


def library_names():
    names = set(LIBRARY)
    for f in LEMMAS + ANSWERS + SOURCES:
        for line in text(f).splitlines():
            m = re.match(r"\s*(?:ghost |pub )*use ([\w.'-]+)\.\{(.*)\}", line)
            if m and not (m[1].startswith("Rattle.") and m[1].split(".")[1] in OWN):
                names.update(n.strip().split(" as ")[0] for n in m[2].split(","))
    return names


def made_names():
    """What Rattle makes for proofs: goals, and what a proof reads of its context."""
    names = set()
    for f in ANSWERS:
        t = text(f)
        names.update(re.findall(r"(?:goal|context|c|l)\.([\w'-]+)", t))
        names.update(re.findall(r"^(?:pub |abbrev )*([\w'-]+) : (?:goal|context)\.", t, re.M))
    return names


def is_dashed(t):
    return re.search(r"[A-Za-z0-9₀-₉'_]-[A-Za-z0-9]", t)


def is_camel(t):
    return re.match(r"[a-z][a-z0-9_]*[A-Z]", t)


def snake(t):
    for old, new in WORDS.items():
        t = re.sub(rf"\b{old}\b", new, t)
    t = t.replace("-", "_")
    return re.sub(r"(?<=[a-z0-9])([A-Z])", lambda m: "_" + m[1].lower(), t)


def camel(t):
    return "".join(p[:1].upper() + p[1:] for p in t.split("-"))


def renamed(t):
    if t in OTHERWISE:
        return OTHERWISE[t]
    return camel(t) if t[0].isupper() else snake(t)


def plan():
    keep = library_names()
    every, found = set(), set()
    for f in LEMMAS + ANSWERS + SOURCES:
        for line in text(f).splitlines():
            tokens = TOKEN.findall(line)
            every.update(tokens)
            if f in LEMMAS and not line.lstrip().startswith("--"):
                found.update(t for t in tokens if is_dashed(t) or is_camel(t))
    table = {t: renamed(t) for t in found if t not in keep}
    return table, every


def respell(t, table):
    """What stands right behind `goal.`, or behind the context of an answer, is Rattle's name."""
    made = re.compile(r"(?:^|[\s(])(?:goal|context|c|l)\.$")

    def name(m):
        return m[0] if made.search(t[max(0, m.start() - 10) : m.start()]) else table.get(m[0], m[0])

    return TOKEN.sub(name, t)


def respell_source(t, table):
    """Ghost lines, clauses and comments alone: the code keeps its names."""
    out = []
    for line in t.split("\n"):
        ghost = re.match(r"\s*(?:pub )?(?:ghost|requires|ensures|//)", line) or "⌝" in line
        out.append(respell(line, table) if ghost else line)
    return "\n".join(out)


def main():
    table, every = plan()
    fallen = sorted((o, n) for o, n in table.items() if n in every or sum(1 for x in table.values() if x == n) > 1)
    made = sorted(set(table) & made_names())
    if "--list" in sys.argv:
        for o in sorted(table):
            print(o, "->", table[o])
        print("falls together:", fallen)
        print("made by Rattle too:", made)
        return
    for f in LEMMAS + ANSWERS:
        t = text(f)
        new = respell(t, table)
        if new != t:
            open(f, "w", encoding="utf-8").write(new)
    for f in SOURCES:
        t = text(f)
        new = respell_source(t, table)
        if new != t:
            open(f, "w", encoding="utf-8").write(new)
    print(f"respell: {len(table)} names")


main()
