#!/usr/bin/env python3
"""Brings the repository's own definitions and lemmas to one spelling, after the kit's port.py.

usage: python3 tools/respell.py [--list]      at the top of the repository, once, on what port.py left

Words are joined by `_` in names of definitions, lemmas, fields and local names (`out-degree` becomes `out_degree`), and types are
in upper camel case (`Law-of-runs` becomes `LawOfRuns`). Names that Rattle makes, and names of the kit's library, stay: a dash
joins their parts. Functions of src/, strings, inputs and outputs stay. In comments and pages only what stands between backticks
is turned. The edits of must-fail/ are turned with the text that they apply to. --list prints the names and writes nothing.
"""
import glob
import os
import re
import sys

# A name with dashes, as one part of a dotted path.
DASHED = re.compile(r"(?<![\w'?₀-₉-])[A-Za-zℓσλ_][\w'?₀-₉]*(?:-[\w'?₀-₉]+)+(?![\w'?-])")
# Names that Rattle makes for the goals and steps of a function.
MADE = re.compile(
    r"^(returns|invariant-|decreases-|loop-|if-|then-|else-|overflow|index-|in-(ok|err|Ok|Err|Some|None|default|[A-Z])|exit-|ensures-|requires-)"
    r"|-(requires|init|preserved|smaller|index|2|3|4)$")
# Types that were written in lower case, by crate.
TYPES = {"semantics": {"accepts": "Accepts", "refuses": "Refuses"}, "": {"table-ready": "TableReady"}}
# A type of which port.py turned the dash alone.
HALF = {"Goes_on": "GoesOn", "Goes-on": "GoesOn"}
# A proof in capitals, which is no type.
PROOFS = {"Names-B": "names_B"}
DEFINED = re.compile(r"^\s*(?:pub |abbrev |unfoldable |record |data |deriving )*([^\s(){};:=,]+)[^=]*? : ", re.M)
BOUND = re.compile(r"[({]((?:[^\s(){}:,;]+ )+): ")
STRING = re.compile(r'("(?:[^"\\]|\\.)*")')
LAMBDA = re.compile(r"λ ((?:[^\s(){}:,;.]+ ?)+)\.")
# What port.py leaves of an edit's text: the older spelling of a place that the edit names.
PLACES = [(re.compile(r"format!\((heap|out|alloc), "), r"format!(in \1; "), (re.compile(r"(\w) \.(?=[a-z])"), r"\1."), (re.compile("′"), "'"), (re.compile(r"\((\w\.[\w-]+)\)"), r"\1")]


def read(path):
    with open(path, encoding="utf-8") as f:
        return f.read()


def write(path, text, old):
    if text != old:
        with open(path, "w", encoding="utf-8") as f:
            f.write(text)


def crates():
    return sorted(c for c in os.listdir("crates") if os.path.isdir(os.path.join("crates", c, "src")))


def proof_texts():
    for d, ds, fs in os.walk("crates"):
        ds[:] = sorted(x for x in ds if x != "out")
        for f in sorted(fs):
            if f.endswith(".antt"):
                yield os.path.join(d, f)


def sources():
    return sorted(glob.glob("crates/*/src/**/*.rt", recursive=True))


def of_a_function(path):
    """Whether a proof file answers a function's goals: it lies in a folder below proofs/."""
    return len(path.split("/proofs/")[-1].split("/")) > 1 if "/proofs/" in path else False


def bare(text):
    """The text with no comments."""
    return re.sub(r"--[^\n]*", "", text)


def imported(text, own):
    """Names that a file takes from a library, and not from a crate of this repository."""
    found = set()
    for m in re.finditer(r"use ([^\s;]+)\.\{([^}]*)\}", text):
        path = m.group(1).split(".")
        if not (path[0] == "Rattle" and path[1] in own):
            found |= {n.split(" as ")[-1].strip() for n in m.group(2).split(",")}
    return found


def names(own):
    """The dashed names that the repository defines or binds, each with its new spelling."""
    found, libraries = set(), set()
    for p in proof_texts():
        text = bare(read(p))
        if of_a_function(p):
            lines = [l for l in text.split("\n") if ": goal." not in l and not l.startswith("use ")]
            text = "\n".join(lines)
            here = set(DEFINED.findall(text))
            for m in list(BOUND.finditer(text)) + list(LAMBDA.finditer(text)):
                here |= set(m.group(1).split())
        else:
            text = re.sub(r"^use .*$", "", text, flags=re.M)
            here = set(DASHED.findall(text)) - imported(bare(read(p)), own)
        found |= {n for n in here if DASHED.fullmatch(n) and not (of_a_function(p) and MADE.search(n))}
        libraries |= imported(bare(read(p)), own)
    for p in sources():
        found |= set(re.findall(r" as ([\w'-]+)", "\n".join(re.findall(r"^ghost use .*$", read(p), re.M)))) & set(DASHED.findall(read(p)))
    found = found - libraries | set(TYPES[""])
    return {n: spelling(n) for n in found}


def spelling(name):
    for turned in (PROOFS, TYPES[""]):
        if name in turned:
            return turned[name]
    if name[0].isupper():
        first, *rest = name.split("-")
        return first + "".join(w[0].upper() + w[1:] for w in rest)
    return name.replace("-", "_")


def turn(text, new, keep, crate, made):
    """Turns each name in a stretch that has neither comments nor strings. Names of steps below `c.` stay where they are made by Rattle."""

    def one(m):
        n = m.group(0)
        if n in keep or n not in new:
            return n
        before = text[: m.start()]
        if made and (MADE.search(n) or re.search(r"(?<![\w'-])(c|w|l|goal)\.$", before)):
            return n
        return new[n]

    text = DASHED.sub(one, text)
    text = re.sub(r"(?<![\w'-])Goes_on(?![\w'-])", HALF["Goes_on"], text)
    for old, to in TYPES.get(crate, {}).items():
        text = re.sub(rf"(?<![\w'.-]){old}(?![\w'-])(?! *[=h;])", to, text)
    return text


def ticked(text, new):
    return re.sub(r"`[^`\n]*`", lambda m: DASHED.sub(lambda n: (HALF | new).get(n.group(0), n.group(0)), m.group(0)), text)


def turn_lines(path, comment, use, new, own, turned):
    """Turns a file line by line: `turned` turns code, and in comments what stands between backticks is turned. Imports from elsewhere and strings stay."""
    old = read(path)
    elsewhere = re.compile(use + r" (?!Rattle\.(" + "|".join(own) + r")\.)")
    out = []
    for line in old.split("\n"):
        code, mark, rest = line.partition(comment)
        if elsewhere.match(line) or code.count('"') % 2:
            out.append(line)
            continue
        code = "".join(part if part.startswith('"') else turned(part) for part in STRING.split(code))
        out.append(code + mark + ticked(rest, new))
    write(path, "\n".join(out), old)


def antt(path, new, own):
    keep, crate, made = imported(read(path), own), path.split("/")[1], of_a_function(path)
    turn_lines(path, "--", "use", new, own, lambda code: turn(code, new, keep, crate, made))


def source(path, new, own):
    keep = imported(read(path), own)
    turn_lines(path, "//", "ghost use", new, own, lambda code: DASHED.sub(lambda m: m.group(0) if m.group(0) in keep else new.get(m.group(0), m.group(0)), code))


def edit(path, new):
    """An edit's texts: as they stand where they fit, else by the spelling of the file that they name."""
    old = read(path)
    lines = old.split("\n")
    name = next((l[6:].strip() for l in lines if l.startswith("file: ")), "")
    text = read(os.path.join(path.split("/must-fail")[0], name))
    turned = []
    for line in lines:
        if line.startswith(("old: ", "new: ")):
            head, body = line[:5], line[5:]
            if name.endswith(".antt"):
                body = DASHED.sub(lambda m: new.get(m.group(0), m.group(0)), body)
            was = next((l[5:] for l in lines if l.startswith("old: ")), "")
            if name.endswith(".antt") or was not in text:
                for pattern, to in PLACES:
                    body = pattern.sub(to, body)
            line = head + body
        turned.append(line)
    write(path, "\n".join(turned), old)


def together(new):
    """Names that would fall together with another name of the repository."""
    words = set()
    for p in proof_texts():
        words |= set(re.findall(r"(?<![\w'-])[\w'?₀-₉]+(?![\w'-])", bare(read(p))))
    turned = {}
    for n, to in sorted(new.items()):
        turned.setdefault(to, []).append(n)
    return {to: ns for to, ns in turned.items() if len(ns) > 1 or to in words}


def main():
    own = crates()
    new = names(own)
    same = together(new)
    if "--list" in sys.argv:
        for n in sorted(new):
            print(n, new[n], "SAME" if new[n] in same else "")
        return
    for p in proof_texts():
        antt(p, new, own)
    for p in sources():
        source(p, new, own)
    for p in sorted(glob.glob("crates/*/must-fail/*.edit")):
        edit(p, new)
    for p in ["README.md", *sorted(glob.glob("docs/*.md"))]:
        if os.path.exists(p) and not p.endswith("PORT.md"):
            write(p, ticked(read(p), new), read(p))
    print(f"respell: {len(new)} names; falling together: {sorted(same)}")


if __name__ == "__main__":
    main()
