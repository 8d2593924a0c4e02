#!/usr/bin/python3 -B
"""Brings the names of our definitions and lemmas to today's spelling: snake case, with types and facts in upper camel case.

It was run once, after the kit's own script for the port (docs/PORT.md). It reads specs/ and proofs/ of every crate, finds each name that is declared
there, and writes it anew wherever it stands: in specs/ and proofs/, and in the clauses and comments of src/. Functions of src/ keep their names.

    tools/respell.py --list     what would be renamed, and which names would fall together
    tools/respell.py            renames
"""
import re
import sys
from pathlib import Path

TOP = Path(__file__).resolve().parent.parent
WORD = re.compile(r"[^\s(){}\[\],;.\"⌜⌝`]+")
DECLARED = re.compile(r"^\s*(?:(?:abbrev|unfoldable|pub|data|record|mutual)\s+)*([^\s(){}\[\],;.\"|:]+)\s+:(?:\s|$)")
LET = re.compile(r"\blet\s+([^\s(){}\[\],;.\"|:]+)\s+(?::|=)")
BOUND = re.compile(r"[({]([a-z][^(){}\[\],;.\"|:=]*?)\s+:\s")
ALIAS = re.compile(r"\sas\s+([a-z][^\s(){}\[\],;.\"|:]*)[,}]")
# A lemma that would get the name of a definition has `_lem` behind it; a constructor of Heard has the short name, and a test of events the long one.
OTHER = {"isBegun": "is_begun_event", "readerImage": "image_of_reader", "writerImage": "image_of_writer", "put-mid": "put_mid_lem",
         "places-of": "places_of_lem", "place-of": "place_of_lem", "low-bits": "low_bits_lem", "gap-of": "gap_of_lem", "start-by": "start_by_lem"}
SHORT = {"fresh-writer", "is-begun", "is-end", "is-other", "flag-byte"}  # constructors and fields, and what one proof calls a step of its own
# The same where the kit's script has respelled the lemma already: in these files alone, and not as a part of a path.
HERE = {
    "demands/proofs/BlockRun.antt": ["end_step"],
    "demands/proofs/NullsHold.antt": ["end_step"],
    "demands/proofs/Demand2Holds.antt": ["given_back"],
    "demands/proofs/Demand3Holds.antt": ["handed_out"],
    "demands/proofs/LineLends.antt": ["rest_out"],
    "demands/proofs/AddLine.antt": ["run_out"],
    "writer/proofs/NumberLaws.antt": ["laid_by"],
    "reader/proofs/EventLaws.antt": ["jump_back"],
    "line/proofs/GapLaws.antt": ["gap_at", "gap_length"],
    "writer/proofs/Packs.antt": ["gap_length"],
    "lines/proofs/fill/put_gap/Proof.antt": ["gap_at", "gap_length"],
    "lines/proofs/opening/put_from_gap/Proof.antt": ["gap_length"],
}
KEPT = {"not-true"}  # the kit has it too


def antt():
    for folder in ("specs", "proofs"):
        yield from sorted(TOP.glob(f"crates/*/{folder}/**/*.antt"))


def sources():
    yield from sorted(TOP.glob("crates/*/src/**/*.rt"))


def made(path):
    """A proof that walks the code: what it declares is named by the check."""
    return path.name == "Proof.antt"


def kit_imports(text):
    found = set()
    for module, names in re.findall(r"^\s*(?:ghost )?(?:pub )?use\s+([^\s{]+?)\.\{([^}]*)\}", text, re.M):
        if own_module(module):
            continue
        for name in names.split(","):
            found.update(name.strip().split(" as "))
    return {n.strip() for n in found}


CRATES = {p.name for p in (TOP / "crates").iterdir()}


def own_module(module):
    parts = module.split(".")
    return parts[0] == "Rattle" and len(parts) > 1 and parts[1] in CRATES


def declared():
    names = {}
    for path in antt():
        if made(path):
            continue
        for number, line in enumerate(path.read_text("utf-8").splitlines(), 1):
            if line.lstrip().startswith("--"):
                continue
            hit = DECLARED.match(line)
            found = [hit.group(1)] if hit else []
            found += LET.findall(line) + ALIAS.findall(line)
            for several in BOUND.findall(line):
                found += several.split()
            for name in found:
                names.setdefault(name, []).append((path, number, line.strip()))
    return names


def today(name):
    """A name in today's spelling. A fact that is a part of it keeps its capital."""
    if name[:1].isupper():
        return name
    name = re.sub(r"(?<=[a-z0-9])([A-Z])(?=[a-z0-9_'-]|$)", lambda m: "_" + m.group(1).lower(), name)
    return re.sub(r"(?<=[A-Za-z0-9₀-₉'])-(?=[a-z0-9])", "_", name)


def renaming(names):
    words = {n: OTHER.get(n, today(n)) for n in names if n not in KEPT}
    camel = {words[n] for n in words if n != words[n] and "-" not in n}
    for n in words:
        if "-" in n and n not in SHORT and n not in OTHER and words[n] in camel:
            words[n] += "_lem"
    return {n: new for n, new in words.items() if new != n}


def turned(path, text, words):
    here = next((HERE[end] for end in HERE if path.as_posix().endswith("crates/" + end)), [])
    for n in here:
        text = re.sub(r"(?<![\w.'-])" + n + r"(?![\w'-])", n + "_lem", text)
    # In a proof that walks the code, what stands behind a point is a step that the check names, but for one field of ours.
    steps = made(path)

    def word(m):
        behind = m.start() > 0 and text[m.start() - 1] == "."
        return m.group(0) if steps and behind and m.group(0) != "same-room" else words.get(m.group(0), m.group(0))

    return WORD.sub(word, text)


def main():
    names = declared()
    words = renaming(names)
    if "--list" in sys.argv:
        back = {}
        for n in names:
            back.setdefault(words.get(n, n), set()).add(n)
        for new, olds in sorted(back.items()):
            if len(olds) > 1:
                print("together", new, sorted(olds))
                for o in sorted(olds):
                    for p, k, line in names[o][:3]:
                        print("     ", o, p.relative_to(TOP), k, line[:120])
        for path in [*antt(), *sources()]:
            text = path.read_text("utf-8")
            kit = kit_imports(text)
            here = set(WORD.findall(text))
            for n in sorted(kit & set(words)):
                print("kit's", n, path.relative_to(TOP))
            for n in sorted(here & set(words)):
                if words[n] in here:
                    print("met", n, "->", words[n], path.relative_to(TOP))
        print(len(words), "names")
        return
    for path in [*antt(), *sources()]:
        old = path.read_text("utf-8")
        new = turned(path, old, words)
        if new != old:
            path.write_text(new, "utf-8")


if __name__ == "__main__":
    main()
