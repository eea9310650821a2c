#!/usr/bin/env python3
"""Brings this repository's own names to the spelling of Rattle's style: run once, behind port.py, at the top.

Definitions and lemmas get snake case, records and data camel case; a dash stays in a lemma where it joins two names. A crate that has the name of a
library of the kit gets another. Functions of src/, strings, and the text of comments outside backticks keep their words.
usage: tools/respell.py [--list]"""
import collections
import os
import re
import subprocess
import sys

CRATES = {"bytes": "octets"}  # the kit has a library named bytes
WORD = re.compile(r"[^\s()\[\]{},;.:\"`⌜⌝|]+")
DECLARED = re.compile(r"^(\s*)((?:(?:abbrev|unfoldable|pub|mutual|data|record|ruleset)\s+)*)([^\s:()\[\]{},;.]+)\s*:(?!\S)\s*(.*)$")
RULESET = re.compile(r"^\s*(?:pub )?ruleset (?:pub )?([^\s:=()]+)")
# What would fall together with another name, or hide one, and its spelling instead.
OTHERWISE = {
    "amount-at": "amount_at_lem",
    "body-in": "body_in_lem",
    "every-field": "every_field_lem",
    "in-year": "in_year_lem",
    "is-clean": "is_clean_lem",
    "is-store": "is_store_lem",
    "kind-in": "kind_in_lem",
    "names-report": "names_report_lem",
    "on-first": "on_first_lem",
    "parties-from": "parties_from_lem",
    "parties-of": "parties_of_lem",
    "settled-sum": "settled_sum_lem",
    "slot-of": "slot_of_lem",
    "sound-at": "sound_at_lem",
    "type-is": "type_is_lem",
    "value-at": "value_at_lem",
    "value-from": "value_from_lem",
    "value-noted": "value_noted_lem",
    "values-given": "values_given_lem",
    "well-listed": "well_listed_lem",
    "well-tagged": "well_tagged_lem",
    "year-days": "year_days_lem",
    "gap-fill": "gap_filled",
    "turnedAway": "turning_away",
    "Whole-report": "WholeTold",
}

# The same, where the name stands alone elsewhere.
IN_FILES = {
    "message/proofs/Sizes.antt": {"as_read": "as_read_lem", "as_written": "as_written_lem"},
    "writer/proofs/Tagged.antt": {"as_read": "as_read_lem"},
    "report/proofs/Longest.antt": {"as_written": "as_written_lem"},
    "frame/proofs/Readable.antt": {"digits_in": "digits_in_lem"},
    "gateway/specs/Promise.antt": {"first_field": "first_field_lem", "read_back": "read_back_lem"},
    "gateway/proofs/Promise.antt": {"first_field": "first_field_lem", "read_back": "read_back_lem"},
    "report/proofs/Clean.antt": {"in_order": "in_order_lem"},
    "message/proofs/Clean.antt": {"in_place": "in_place_lem"},
    "table/proofs/Places.antt": {"in_place": "in_place_lem"},
    "dictionary/proofs/Types.antt": {"is_body": "is_body_lem"},
    "gateway/proofs/Leaving.antt": {"left_by": "left_by_lem"},
    "report/proofs/Given.antt": {"text_at": "text_at_lem"},
    "store/proofs/Running.antt": {"number-at": "number_at_lem"},
    "store/proofs/Filled.antt": {"number-at": "number_at_lem"},
}


def texts():
    for folder, dirs, files in os.walk("crates"):
        dirs[:] = sorted(d for d in dirs if d != "out")
        for name in sorted(files):
            if name.endswith((".antt", ".rt", ".edit")):
                yield os.path.join(folder, name)


def snake(name):
    name = re.sub(r"IDs(?=[A-Z]|$)", "Ids", name)
    name = re.sub(r"([a-z0-9])([A-Z])", r"\1_\2", name)
    name = re.sub(r"([A-Z]+)([A-Z][a-z])", r"\1_\2", name)
    return "_".join(p if re.fullmatch(r"[A-Z][0-9]*", p) and i == 0 else p.lower() for i, p in enumerate(name.split("_")))


def camel(name):
    return "".join(p[:1].upper() + p[1:] for p in name.split("-"))


def declared():
    kinds = collections.defaultdict(set)
    for path in texts():
        if not path.endswith(".antt"):
            continue
        generated = path.endswith("/Proof.antt")
        lines = open(path, encoding="utf-8").read().split("\n")
        inside = None  # indentation of the data whose constructors follow
        for line in lines:
            if line.lstrip().startswith("--"):
                continue
            r = RULESET.match(line)
            if r:
                kinds[r.group(1)].add("lemma")
                continue
            m = DECLARED.match(line)
            if line.strip() and inside is not None and len(line) - len(line.lstrip()) <= inside:
                inside = None
            if not m:
                continue
            indent, words, name, kind = len(m.group(1)), m.group(2).split(), m.group(3), m.group(4)
            if generated and re.match(r"(tie|goal)\.", kind):
                continue
            if "data" in words or "record" in words:
                kinds[name].add("type")
                if "data" in words:
                    inside = indent
            elif inside is not None:
                kinds[name].add("constructor")
            elif "abbrev" in words or "unfoldable" in words:
                kinds[name].add("definition")
            else:
                kinds[name].add("lemma" if indent == 0 else "field")
    return kinds


JOINED = set("length take drop append get_or get set sum value map reverse filter min max ++ + - * / % ≤ < ≡ ∷".split())


def spelled(name, kinds, joins):
    if name in OTHERWISE:
        return OTHERWISE[name]
    ring = re.fullmatch(r"(◌?)(.*?)(◌?)", name)
    core = ring.group(2)
    if "◌" in core:
        return name
    if "type" in kinds:
        return name if "-" not in core else camel(core)
    if core[:1].isupper() and "constructor" in kinds:
        return camel(core)
    parts = [snake(p) if not p[:1].isupper() or re.search(r"[a-z0-9][A-Z]", p) and not p[:1].isupper() else p for p in core.split("-")]
    if core[:1].isupper() and "-" in core and core.split("-")[0] in joins | {"E"} and kinds == {"lemma"}:
        return "-".join([parts[0], "_".join(parts[1:])])
    out = parts[0]
    for i, p in enumerate(parts[1:], 1):
        left = out.split("-")[-1]
        keep = kinds == {"lemma"} and left in joins and p in joins
        out += ("-" if keep else "_") + p
    return ring.group(1) + out + ring.group(3)


def plan():
    kinds = declared()
    defined = {n for n, k in kinds.items() if k & {"definition", "type", "constructor"}}
    joins = JOINED | {snake(n) if not n[:1].isupper() else n for n in defined if "-" not in n and len(n) > 3}
    table = {}
    for name in sorted(kinds):
        if "-" in name.strip("◌") or re.search(r"[a-z0-9][A-Z]", name) and not name[:1].isupper():
            new = spelled(name, kinds[name], joins)
            if new != name:
                table[name] = new
                core, to = name.strip("◌"), new.strip("◌")
                if core != name and (len(core) < len(name)):
                    table[core] = to
    return kinds, table


def turned_words(text, table):
    return WORD.sub(lambda m: table.get(m.group(0), m.group(0)), text)


def turned_line(line, table, code):
    """code: what a line of .antt or a clause is; else it is Rust's, and only a comment's backticks are turned."""
    out, i = [], 0
    comment = None
    for mark in ("--", "//", "#"):
        at = line.find(mark)
        if at >= 0 and (mark == "//" and not code or mark == "--" and code and (at == 0 or line[at - 1] == " ") and line[at : at + 3] in ("-- ", "--")):
            comment = at if comment is None else min(comment, at)
    body, said = (line, "") if comment is None else (line[:comment], line[comment:])
    said = re.sub(r"`[^`]*`", lambda m: turned_words(m.group(0), table), said)
    if code:
        body = "".join(p if k % 2 else turned_words(p, table) for k, p in enumerate(re.split(r'("(?:[^"\\]|\\.)*")', body)))
    return body + said


def turned(path, text, table):
    lines = text.split("\n")
    if path.endswith(".antt"):
        return "\n".join(turned_line(l, table, True) for l in lines)
    out, clause = [], False
    for l in lines:
        starts = re.match(r"\s*(old: |new: )?\s*(pub )?(ghost\b|requires\b|ensures\b)", l)
        if starts:
            clause = True
        out.append(turned_line(l, table, clause))
        if clause:
            depth = sum(x.count("{") - x.count("}") for x in [l])
            clause = False if depth <= 0 and l.rstrip().endswith(("}", ";")) or path.endswith(".edit") else clause
    return "\n".join(out)


def main():
    kinds, table = plan()
    back = collections.defaultdict(list)
    for a, b in table.items():
        back[b].append(a)
    seen = collections.Counter()
    for path in texts():
        seen.update(set(WORD.findall(open(path, encoding="utf-8").read())))
    if "--list" in sys.argv:
        for b, names in sorted(back.items()):
            if len(names) > 1:
                print("together:", names, "->", b)
        for b, names in sorted(back.items()):
            if b in seen and b not in table:
                print("there already:", names, "->", b, seen[b], sorted(kinds.get(b, [])))
        for a, b in sorted(table.items()):
            print(f"{a} {b}")
        return
    for old, new in CRATES.items():
        subprocess.run(["git", "mv", f"crates/{old}", f"crates/{new}"], check=True)
    crate_paths = [(re.compile(rf"\bRattle\.{o}\."), f"Rattle.{n}.") for o, n in CRATES.items()]
    crate_uses = [(re.compile(rf"\b{o}::"), f"{n}::") for o, n in CRATES.items()]
    for path in texts():
        text = open(path, encoding="utf-8").read()
        own = next((v for k, v in IN_FILES.items() if path.endswith("crates/" + k) or path.endswith("/" + k)), {})
        new = turned(path, text, table | own)
        for a, b in crate_paths:
            new = a.sub(b, new)
        if path.endswith((".rt", ".edit")):
            for a, b in crate_uses:
                new = a.sub(b, new)
        if new != text:
            open(path, "w", encoding="utf-8").write(new)
    lines = open("crates.txt").read().split("\n")
    for o, n in CRATES.items():
        lines = [l if l.startswith("#") else re.sub(rf"\b{o}\b", n, l) for l in lines]
    open("crates.txt", "w").write("\n".join(lines))


main()
