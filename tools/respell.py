#!/usr/bin/env python3
"""tools/respell.py [FOLDER]: spells this repository's own definitions and lemmas as today's Rattle spells names, once,
behind the kit's port.py: words in snake case (`unfoldFile` is `unfold_file`), and a dash only where it joins the names of
two functions of the library (`drop-take`), so that `undefined-first` is `undefined_first`. A lemma that would have its
function's name gets `_lem`. Texts in quotation marks stay, and so do
names that a file takes from a library and names that the kit makes. Names that would fall together are told, and stay."""
import collections
import os
import re
import sys

ROOT = sys.argv[1] if len(sys.argv) > 1 else "."
WORD = re.compile(r"(?<![^\s(){}.;,@\"«»\[\]`])[^\s(){}.;,@\"«»\[\]`]+")
CAMEL = re.compile(r"(?<![A-Za-z0-9_'])([a-z][a-z0-9_]*)((?:[A-Z][a-z0-9_]*)+)(?![A-Za-z])")
DECLARED = re.compile(
    r"^\s*(?:(?:opaque|unfoldable|abbrev|pub|irreducible) )*([^\s(){}.;,@\"]+)(?: \{[^{}\n]*\}| \([^()\n]*\))* ?:(?!=)", re.M)
USE = re.compile(r"\buse ([^\s;{]+)(?:\{([^}]*)\})?(?: as ([^\s;]+))?", re.M)
# words of the library that join others by a dash in this repository
LIBRARY = """length append take drop set replicate reverse map get or get_or eqb eq leb le ltb lt add mul sub div mod suc nil
cons not true false to_z of_z nat_abs div_nat mod_nat min max zero pow neg abs""".split()
# lemmas that would have their function's name, and the files that say them
LEMMAS = {
    "at_table": "read_objects/proofs/RowLaws",
    "component_bytes": "meaning/proofs/Model/GoodBytes",
    "digits_of": "meaning/proofs/Values/Digits meaning/proofs/Values/Numerals",
    "goes_on": "base/proofs/Runs base/proofs/fields/skip_separators/Proof",
    "has_code": "read_frame/proofs/Moves read_frame/proofs/TableLines read_frame/proofs/TopicLines",
    "last_digits": "meaning/proofs/Values/Digits meaning/proofs/Values/Dates meaning/proofs/Values/ValueClaims "
                   "meaning/proofs/Writing/Permits",
    "model_of": "meaning/proofs/Model/Standing",
    "no_room": "meaning/proofs/Right/First meaning/proofs/Right/Claims",
    "no_table": "meaning/proofs/Judge/Unwritable meaning/proofs/Right/Reasoned meaning/proofs/Right/StepNames "
                "meaning/proofs/Right/StepLines meaning/proofs/Writing/ReadWritable meaning/proofs/Writing/Refusals",
    "object_of": "meaning/proofs/Right/BackObjects",
    "word-in": "read_frame/proofs/Words",
}
MADE = re.compile(r"/proofs/.*/Proof\.antt$|/proofs/Proof\.antt$")


def files():
    for folder, dirs, names in os.walk(os.path.join(ROOT, "crates")):
        dirs[:] = sorted(d for d in dirs if d != "out")
        for name in sorted(names):
            if name.endswith((".antt", ".rt", ".edit")):
                yield os.path.join(folder, name)


def snake(word):
    return CAMEL.sub(lambda m: m[1] + re.sub(r"[A-Z]+", lambda c: "_" + c[0].lower(), m[2]), word)


texts = {path: open(path, encoding="utf-8").read() for path in files()}
crates = set(os.listdir(os.path.join(ROOT, "crates")))
plain = set(LIBRARY)
others = set()
dashed = set()
for path, text in texts.items():
    if path.endswith(".antt") and not MADE.search(path):
        for name in DECLARED.findall(text):
            if "-" in name and re.search("[a-z]", name):
                dashed.add(name)
            else:
                others.add(snake(name))


def undashed(name):
    """A dash stays between two names of definitions."""
    parts = snake(name).split("-")
    made = parts[0]
    for before, part in zip(parts, parts[1:]):
        made += ("-" if before in plain and part in plain else "_") + part
    return made + "_lem" if made in others else made


def spelled(text, path, taken, names):
    def turn(m):
        word = m[0]
        if path[:-5] in [os.path.join(ROOT, "crates", f) for f in LEMMAS.get(word, "").split()]:
            return word.replace("-", "_") + "_lem"
        if word in taken:
            return word
        if word in names:
            return undashed(word)
        return snake(word)
    pieces = re.split(r'("(?:\\.|[^"\\\n])*")', text)
    return "".join(piece if i % 2 else WORD.sub(turn, piece) for i, piece in enumerate(pieces))


def main():
    said = 0
    meet = collections.defaultdict(set)
    for name in dashed:
        meet[undashed(name)].add(name)
    staying = set()
    for new, olds in sorted(meet.items()):
        if len(olds) > 1:
            print("fall together:", new, *sorted(olds))
            staying |= olds
            said += 1
    names = dashed - staying
    for path, text in sorted(texts.items()):
        brought = set()
        for where, items, _ in USE.findall(text):
            steps = where.strip(".").split(".")
            if not (steps[0] == "Rattle" and len(steps) > 1 and steps[1] in crates):
                brought |= {n.strip() for n in items.split(",")}
        own = set(names)
        if MADE.search(path):
            # what the kit makes, and what the file itself calls an answer, keeps its name
            own -= set(DECLARED.findall(text))
            own -= set(re.findall(r"(?:tie|c|s|at|goal)\.([^\s(){}.;,]+)", text))
        new = spelled(text, path, brought, own)
        words = set(WORD.findall(text))
        for word in words:
            if path[:-5] in [os.path.join(ROOT, "crates", f) for f in LEMMAS.get(word, "").split()]:
                continue
            turned = word if word in brought else undashed(word) if word in own else snake(word)
            if turned != word and turned in words:
                print("look:", os.path.relpath(path, ROOT), word, "is", turned, "which stands there")
                said += 1
        if new != text:
            with open(path, "w", encoding="utf-8") as out:
                out.write(new)
    print(said, "places to look at")


main()
