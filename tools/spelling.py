#!/usr/bin/env python3
"""Brings this repository's own definitions and lemmas to the spelling of today's Rattle: snake case, with a dash only where it
joins two names of functions, or a capital to a name. Run once, at the top, right after /opt/rattle/port/port.py:

    python3 tools/spelling.py

Names of src/, exported C names, strings, inputs and outputs keep their spelling, and so do the names that Rattle makes and the
goals that a proof file answers. What is renamed is printed, a line each: OLD NEW."""
import collections
import glob
import os
import re
import sys

TOKEN = re.compile(r"[^\s(){}\[\],;.@:=λ|\\\"`⟨⟩⌜⌝]+")
DECLARED = re.compile(r"^(\s*)((?:abbrev|pub|unfoldable|pattern|axiom) )*([^\s(){}\[\],;:=]+)(?: \{[^}:]*\})? : (.*)$", re.M)
HEAD = re.compile(r"^(abbrev |unfoldable |pub |axiom )+([^\s(){}\[\],;:=]+)(?: \{[^}:]*\})? : ", re.M)
USE = re.compile(r"^(?:ghost )?use ([^\n{]*)\.\{([^}]*)\}", re.M)
GOAL = re.compile(r"(tie|goal)\.")

LISTS = {"length", "take", "drop", "append", "set", "sets", "get_or", "map", "reverse", "sum", "slice"}
# functions into types
TYPES = {"judged": "IsJudged", "across": "Across", "told": "IsTold"}
FEW = {"judged": ("crates/trees/", "crates/records/proofs/Entering", "crates/transducer/"), "across": ("crates/theory/",), "told": ("crates/exports/specs/Exported", "crates/exports/proofs/Telling")}


def snake(word):
    return re.sub(r"(?<=[a-z0-9])([A-Z])(?=[a-z])", lambda m: "_" + m.group(1).lower(), word)


def own(module):
    return module.startswith("Rattle.") and not re.match(r"Rattle\.(std|core|check|io|os|libc)\b", module)


def made(module):
    return any(part in module.split(".") for part in ("declared", "contracts", "Statement", "Tie", "Given", "Goals"))


def without_comments(text):
    return re.sub(r"--.*", "", text)


def main():
    specs = glob.glob("crates/*/specs/**/*.antt", recursive=True)
    proofs = glob.glob("crates/*/proofs/**/*.antt", recursive=True)
    sources = glob.glob("crates/*/src/*.rt")
    pages = ["README.md"] + glob.glob("docs/*.md")
    text = {f: open(f).read() for f in specs + proofs + sources}
    names, goals, library, functions = set(), collections.defaultdict(set), set(), set()
    for f, t in text.items():
        for module, items in USE.findall(t):
            for item in items.split(","):
                name = item.strip().split(" as ")[0]
                if not own(module) or made(module):
                    library.add(name)
    for f in specs + proofs:
        t = without_comments(text[f])
        for m in DECLARED.finditer(t):
            name, kind = m.group(3), m.group(4)
            if os.path.basename(f) in ("Proof.antt", "Answers.antt") and (GOAL.match(kind) or "statement" in kind):
                goals[f].add(name)
            else:
                names.add(name)
    for f in specs:
        functions |= {snake(m.group(2)) for m in HEAD.finditer(without_comments(text[f])) if snake(m.group(2)) != m.group(2)}
    functions |= LISTS
    everything = set()
    for f in specs + proofs:
        everything |= set(TOKEN.findall(USE.sub(lambda m: m.group(2), without_comments(text[f]))))

    def spelled(name):
        if "·" in name or not re.search(r"[A-Za-z]", name):
            return name
        parts = [snake(p) if re.match(r"^[a-z]", p) else p for p in name.split("-")]
        new = parts[0]
        for i in range(1, len(parts)):
            joins = (i == 1 and re.match(r"^[A-Z]", parts[0])) or re.match(r"^[A-Z]", parts[i]) or (
                parts[i - 1] in functions and parts[i].rstrip("'") in functions) or not parts[i - 1] or not parts[i]
            new += ("-" if joins else "_") + parts[i]
        return new

    for f in sources:
        everything -= set(re.findall(r"\w+", text[f])) - names

    # a lemma that would have its function's name ends in `_lem`
    renamed, taken = {}, set()
    for name in sorted(names, key=lambda n: ("-" in n, n)):
        if name in library:
            continue
        new = spelled(name)
        if new == name:
            continue
        if new in everything and new in names and "-" not in name:
            renamed[new] = new + "_lem"
            print("falls together:", name, new, "so that one becomes", new + "_lem", file=sys.stderr)
        elif new in taken or new in everything or new in library:
            print("falls together:", name, new, file=sys.stderr)
            new += "_lem"
            if new in taken or new in everything:
                sys.exit("no name for " + name)
        taken.add(new)
        renamed[name] = new

    def turn(f, kept):
        def one(m):
            name = m.group(0)
            if name in kept:
                return name
            if name in TYPES and f.startswith(FEW[name]) and "--" not in text[f][text[f].rfind("\n", 0, m.start()) + 1 : m.start()]:
                return TYPES[name]
            return renamed.get(name, name)

        return TOKEN.sub(one, text[f])

    for f in specs + proofs:
        new = turn(f, goals[f])
        if new != text[f]:
            open(f, "w").write(new)
    for f in sources:
        lines = text[f].split("\n")
        inside = False
        for i, line in enumerate(lines):
            if re.match(r"\s*(requires|ensures|ghost)\b", line):
                inside = True
            if inside:
                lines[i] = TOKEN.sub(lambda m: renamed.get(m.group(0), m.group(0)), line)
                if line.rstrip().endswith(("}", ";")):
                    inside = False
        new = "\n".join(lines)
        if new != text[f]:
            open(f, "w").write(new)
    for f in pages:
        t = open(f).read()
        new = re.sub(r"`[^`\n]+`", lambda m: TOKEN.sub(lambda k: renamed.get(k.group(0), k.group(0)), m.group(0)) if not re.search(r"[/ ]caplune ", m.group(0)) else m.group(0), t)
        if new != t:
            open(f, "w").write(new)
    for name, new in sorted(renamed.items()):
        print(name, new)


main()
