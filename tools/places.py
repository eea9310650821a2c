#!/usr/bin/env python3
# Counts the places of src/ that docs/DESIGN-PASS.md speaks of, by their text: python3 tools/places.py [FOLDER], the folder of a checkout (this one, if none is named).
# Each line is a file with its line, or a function; what a text can't tell (which enums have Option's shape, which functions are twins) the page tells by reading.
import collections, pathlib, re, sys

root = pathlib.Path(sys.argv[1]) if len(sys.argv) > 1 else pathlib.Path(__file__).resolve().parent.parent
files = sorted((root / "crates").glob("*/src/**/*.rt"))
code = {str(f.relative_to(root)): f.read_text().split("\n") for f in files}


def lines_with(pattern):
    return [f"{name}:{n}: {line.strip()}" for name, text in code.items() for n, line in enumerate(text, 1) if re.search(pattern, line)]


def show(head, places):
    print(f"{head}: {len(places)}")
    for place in places:
        print(f"    {place}")


def functions():
    # Each function as its crate and name, its parameters, its result, and its clauses that ask something.
    for name, text in code.items():
        whole = "\n".join(text)
        for m in re.finditer(r"^ *(?:pub )?(?:extern \"C\" )?fn (\w+)(?:<[^(]*>)?\((.*?)\)(?: -> (.*?))?\s*(?=\n *(?:requires|ensures)|\s*\{)(.*?)^ *\{$|^ *(?:pub )?fn (\w+)\(\)", whole, re.M | re.S):
            if m.group(1):
                yield f"{name.split('/')[1]}::{m.group(1)}", m.group(2), m.group(3) or "", m.group(4)


def parts(clause):
    # The facts of a conjunction.
    depth, part, found = 0, "", []
    for c in clause:
        depth += (c in "([") - (c in ")]")
        if c == "×" and depth == 0:
            found.append(part.strip())
            part = ""
        else:
            part += c
    found.append(part.strip())
    if len(found) > 1:
        return [q for p in found for q in parts(p)]
    inner = found[0]
    if inner.startswith("(") and inner.endswith(")") and closes_last(inner):
        return parts(inner[1:-1])
    return found


def closes_last(text):
    depth = 0
    for i, c in enumerate(text):
        depth += (c == "(") - (c == ")")
        if depth == 0:
            return i == len(text) - 1
    return False


show("point 1, enums", lines_with(r"^ *(pub )?enum "))
show("point 1, a number or an empty part for none, as the lines above a function say", lines_with(r"^//.*(\bor 0\b|; 0,|; 0 (for|where)|, or 0|0 where|start 0|no place|64 for none|11 for any|or the number of tags|no bytes where|(0: none))"))
show("point 1, constants that number kinds", lines_with(r"^(pub )?const [A-Z0-9_]+: u32 = [0-9]+;"))
show("point 1, a flag with a value beside it", lines_with(r"^ *(there|typed|given|isOpen|reset): (bool|u64|\[bool)|there: bool"))
show("point 3, loops that are no `for`", lines_with(r"^ *(while|loop)\b|= '[a-z]+: loop"))
show("point 3, `for`", lines_with(r"^ *for "))
facts, together = collections.defaultdict(set), collections.defaultdict(set)
for function, parameters, _, clauses in functions():
    for clause in re.findall(r"requires(?: \w+)? \{ (.*) \}", clauses):
        for fact in parts(clause):
            facts[fact].add(function)
    named = sorted({p.strip() for p in re.split(r",\s*(?![^<(\[]*[>)\]])", parameters) if ":" in p})
    for i in range(len(named)):
        for j in range(i + 1, len(named)):
            for k in range(j + 1, len(named)):
                together[(named[i], named[j], named[k])].add(function)
show("point 5, facts that three or more contracts ask", [f"{len(v)} {k}" for k, v in sorted(facts.items(), key=lambda e: (-len(e[1]), e[0])) if len(v) >= 3])
show("point 5, three parameters that travel through four or more functions", [f"{len(v)} {', '.join(k)}" for k, v in sorted(together.items(), key=lambda e: (-len(e[1]), e[0])) if len(v) >= 4])
show("point 6, arrays of numbers", lines_with(r": \[(u8|u64|usize|bool); ?\w+\],?$"))
answers = collections.Counter()
for f in sorted((root / "crates").glob("*/proofs/**/Answers.antt")):
    answers[f.relative_to(root).parts[1]] += sum(1 for line in f.read_text().split("\n") if re.match(r"^(pub )?\S+ : goal\.", line))
show("point 8, answers", [f"{n} {crate}" for crate, n in answers.most_common()])
print("lines of src/:", sum(len(t) - 1 for t in code.values()), "functions:", sum(1 for _ in functions()))
