#!/usr/bin/env python3
"""Brings the repository's own names to one spelling: snake case, with a dash between the names of a
crate, a type and a function where a row of a list is named after them.

usage: python3 tools/respell.py [FILE]     at the top, once, right after the kit's port.py, which
says in FILE what it renamed by itself (where none is named, the one that it leaves)

It renames the definitions, lemmas and fields of specs/ and proofs/ wherever they are cited: there,
in the clauses of src/, in what the edits of must-fail/ say of themselves, and in README and docs/.
Names of src/ keep their spelling. Where a lemma and a definition would fall together, the lemma's
name ends in _lem. The file specs/Contracts.antt of `demands` is Promises.antt, since the checker
makes a module of the old name.
"""
import collections
import glob
import os
import re
import subprocess
import sys
import tempfile

TOKEN = r"[^\s(){}\[\],;.:λ\"`|@]+"
DECLARES = re.compile(r"^\s*(?:(?:abbrev|unfoldable|pub|pattern|data|record)\s+)*(" + TOKEN + r")\s*:(?:\s|$)")
USES = re.compile(r"^\s*(?:pub |ghost )*use ([^\s{]+)\.\{(.*)\}")
OWN = re.compile(r"^Rattle\.(" + "|".join(sorted(os.listdir("crates"))) + r")\.")
CAMEL = re.compile("[a-z0-9][A-Z]")
# bound in a proof, by no signature
LOCAL = "kindIn restsAt placeAt ends-here f-is first-is fourth-is holds-value in-range is-both is-g line-laws s-is t-is third-is value-is both-def both-thm test-def test-thm"
SAID_BY_PORT = os.path.join(tempfile.gettempdir(), "port-said", "upgrade.txt")


def files(*endings):
    found = []
    for ending in endings:
        found += glob.glob("crates/*/" + ending, recursive=True)
    return sorted(f for f in found if "/out/" not in f)


def read(path):
    with open(path, encoding="utf-8") as f:
        return f.read()


def write(path, text):
    with open(path, "w", encoding="utf-8") as f:
        f.write(text)


def snake(name):
    if "·" in name:
        return "-".join(part.replace("-", "_") for part in name.split("·"))
    if name[0].isupper():
        return name
    name = re.sub(r"([a-z0-9])([A-Z])", lambda m: m.group(1) + "_" + m.group(2).lower(), name)
    return name.replace("-", "_").replace("′", "'")


def walks(path):
    """The proof of one function: the names that it declares are the checker's."""
    return os.path.basename(path) == "Proof.antt"


def declared():
    own = set(LOCAL.split())
    for path in files("specs/**/*.antt", "proofs/**/*.antt"):
        if walks(path):
            continue
        for line in read(path).split("\n"):
            m = DECLARES.match(line)
            if m:
                own.add(m.group(1))
    return own


def table(own):
    """Old to new."""
    new = {n: snake(n) for n in own if snake(n) != n}
    meet = collections.defaultdict(set)
    for old, to in new.items():
        meet[to].add(old)
    for to, olds in meet.items():
        if to in own:
            olds = olds | {to}
        if len(olds) > 1:
            lemmas = [o for o in olds if not CAMEL.search(o)]
            assert len(olds) - len(lemmas) <= 1, (to, olds)
            for old in lemmas:
                new[old] = to + "_lem"
    return new


def taken_from_elsewhere(text, names):
    out = set()
    for line in text.split("\n"):
        m = USES.match(line)
        if m and not OWN.match(m.group(1)):
            out |= {w.split(" as ")[0].strip() for w in m.group(2).split(",")} & names
    return out


def turn(path, new):
    text = read(path)
    kept = taken_from_elsewhere(text, set(new))
    if kept:
        print(f"look: {path} takes from elsewhere {sorted(kept)}")

    def word(m):
        w = m.group(0)
        if w not in new or w in kept:
            return w
        line = text[text.rfind("\n", 0, m.start()) + 1 : m.start()]
        if walks(path) and line.endswith(".") and not line.lstrip().startswith("use "):
            return w
        return new[w]

    turned = re.sub(TOKEN, word, text)
    turned = re.sub(r"Rattle\.demands\.specs\.Contracts\b", "Rattle.demands.specs.Promises", turned)
    if turned != text:
        write(path, turned)


def said_by_port(new):
    """What port.py renamed, old to new."""
    out = {}
    for line in read(sys.argv[1] if len(sys.argv) > 1 else SAID_BY_PORT).split("\n"):
        if "snake case now: " in line:
            listed = line.split("snake case now: ")[1].split(". Your other")[0]
            for old in listed.split(", "):
                if snake(old) != old:
                    to = re.sub(r"([a-z0-9])([A-Z])", lambda m: m.group(1) + "_" + m.group(2).lower(), old).replace("-", "_")
                    out[old] = new.get(to, to)
    return out


def turn_prose(path, names, lines=lambda line: True):
    text = read(path)
    turned = "\n".join(re.sub(TOKEN, lambda m: names.get(m.group(0), m.group(0)), l) if lines(l) else l for l in text.split("\n"))
    turned = turned.replace("Rattle·", "Rattle.").replace("specs/Contracts`", "specs/Promises`")
    if turned != text:
        write(path, turned)


def main():
    new = table(declared())
    for path in files("specs/**/*.antt", "proofs/**/*.antt", "src/**/*.rt"):
        turn(path, new)
    subprocess.run(["git", "mv", "crates/demands/specs/Contracts.antt", "crates/demands/specs/Promises.antt"], check=True)
    lib = "crates/demands/specs/Lib.antt"
    write(lib, read(lib).replace("pub mod Contracts\n", "").replace("pub mod PrintedRun\n", "pub mod PrintedRun\npub mod Promises\n"))
    for crate in sorted(os.listdir("crates")):
        subprocess.run(["rt", "fmt"], cwd=os.path.join("crates", crate), check=True)
    names = new | said_by_port(new)
    for path in files("must-fail/*.edit"):
        turn_prose(path, names, lambda line: not re.match("(file|old|new):", line))
    for path in ["README.md"] + sorted(glob.glob("docs/*.md")):
        turn_prose(path, names)
    print(f"{len(new)} names here, {len(names)} in all")


if __name__ == "__main__":
    main()
