#!/usr/bin/env python3
"""Brings the names of this repository's definitions and lemmas to the spelling of today's Rattle. Run once, after the kit's port.py.

    tools/respell.py           rewrites the files
    tools/respell.py --list    prints each name and what it becomes

Words are in snake case, types and modules in camel case, and dashes stay only where they join names of definitions or functions of this repository
or of the library. Functions of src/, strings, inputs and outputs keep their names.
"""
import os
import re
import sys

ROOT = os.path.dirname(os.path.dirname(os.path.abspath(__file__)))
SIGNATURE = re.compile(r"^\s*(abbrev\s+|unfoldable\s+)?(?:pub\s+)?(abbrev\s+|unfoldable\s+)?(?:data\s+|record\s+)?([^\s(){}:.,]+(?:\s+[^\s(){}:.,]+)*)(?:\s+\{ℓ[^}]*\})?(?:\s+\(.*?\)|\s+\{.*?\})*\s*:\s")
TOKEN = re.compile(r"[^\s(){}\[\].,:;`\"@|]+")
# what the library names, and lemmas' names end in
LIBRARY = set("length append map mem take drop set replicate sum max min cond not get_or".split())
# names that would fall together with another
OTHERWISE = {
    "judgement-of": "judgement_of_lem", "hi-names": "hi_names_lem", "lo-names": "lo_names_lem", "fit_word": "fit_word_lem", "missed_by": "missed_by_lem",
    "up-to-append": "UpTo-append", "up-to-job": "UpTo-job", "up-to-within": "UpTo-Within",
    "unfit-word": "unfit_word_lem", "refused-word": "refused_word_lem",
}
# names that variables have, and one in a comment
VARIABLES = {
    "afterX": "after_x", "afterY": "after_y", "loX": "lo_x", "hiX": "hi_x", "loY": "lo_y", "hiY": "hi_y", "loAfter": "lo_after",
    "hiAfter": "hi_after", "rowsIn": "rows_in", "orderForm": "order_form", "madeLo": "made_lo", "madeHi": "made_hi", "inRange": "in_range",
}
# names of variables that stand beside a field of the code with the new name
APART = {("Columns.antt", "hiOrder"), ("Columns.antt", "loOrder")}
# facts that were spelled as functions, and the files that speak of them: what is no comment, and a comment where the name stands before an argument
FACTS = [
    ("holds", "Holds", ["model/proofs/Table.antt"]),
    ("allHold", "AllHold", ["model/proofs/Table.antt"]),
    ("within", "Within", ["laws/proofs/Ends.antt", "laws/proofs/Turns.antt", "laws/proofs/Outcomes.antt", "theory/proofs/Dominance.antt", "theory/proofs/Fitness.antt", "theory/proofs/Results.antt"]),
    ("signed", "IsSigned", ["theory/specs/Signs.antt", "theory/proofs/Margins.antt", "theory/proofs/Results.antt"]),
    ("up_to", "UpTo", ["forms/proofs/Sections.antt", "forms/proofs/Accepted.antt", "forms/proofs/Lengths.antt"]),
]


def files():
    for folder, inner, names in os.walk(os.path.join(ROOT, "crates")):
        inner[:] = sorted(d for d in inner if d not in ("out", "data"))
        for name in sorted(names):
            if name.endswith((".antt", ".rt", ".edit")):
                yield os.path.join(folder, name)
    for folder in ("docs", "sweep", "."):
        top = os.path.join(ROOT, folder)
        for inner_folder, inner, names in os.walk(top):
            inner[:] = sorted(d for d in inner if folder == "sweep")
            for name in sorted(names):
                if name.endswith((".md", ".edit")) and not name.startswith("PORT"):
                    yield os.path.join(inner_folder, name)


def declared():
    """Each name that an .antt file declares, and whether it is a definition: what specs/ declares, or what can be unfolded."""
    names = {}
    for path in files():
        if not path.endswith(".antt") or path.endswith("/Proof.antt"):
            continue
        with open(path) as lines:
            for line in lines:
                found = SIGNATURE.match(line)
                if line.startswith("use "):
                    for name in re.findall(r" as ([A-Za-z][^\s,}]*)", line):
                        names.setdefault(name, False)
                if not found or line.lstrip().startswith(("use ", "--", "let ", "λ", "module ")):
                    continue
                for name in found.group(3).split():
                    definition = "/specs/" in path or bool(found.group(1) or found.group(2))
                    names[name] = names.get(name, False) or definition
    return names


def functions():
    """The names of the functions of src/."""
    found = set()
    for path in files():
        if path.endswith(".rt"):
            with open(path) as text:
                found |= set(re.findall(r"\bfn (\w+)", text.read()))
    return found


def snake(word):
    """The words of a name in snake case. A name that begins with a capital is a type or a set, and keeps it."""
    word = word.replace("getD", "get_or").replace("′", "'")
    if word[:1].isupper():
        return word
    return re.sub(r"(?<=[a-z0-9])([A-Z])(?=[a-z]|$|-|_)", lambda m: "_" + (m.group(1).lower() if m.end() < len(word) and word[m.end():m.end() + 1].islower() else m.group(1)), word)


def table():
    names = declared()
    definitions = {snake(n) for n, is_definition in names.items() if is_definition and "-" not in n} | LIBRARY | functions()
    made = {}
    for name in names:
        if not re.search(r"[A-Za-z]", name) or name.startswith(("invariant-", "decreases-")):
            continue
        parts = snake(name).split("-")
        pieces, k = [], 0
        while k < len(parts):
            # the longest run of parts that is the name of a definition, else one part
            run = next((n for n in range(len(parts), k, -1) if "_".join(parts[k:n]) in definitions), k + 1)
            pieces.append("_".join(parts[k:run]))
            k = run
        all_names = all(piece in definitions for piece in pieces) and pieces[-2:] != ["at", "P"]
        new = ("-" if all_names else "_").join(pieces)
        new = OTHERWISE.get(name, new)
        if new != name:
            made[name] = new
    # a lemma that would have its definition's name
    taken = {made.get(n, n) for n, is_definition in names.items() if is_definition} | {n for n in names if n not in made}
    for name, new in made.items():
        if not names[name] and new in taken and name not in OTHERWISE:
            made[name] = new + "_lem"
    return made | VARIABLES


def facts():
    """Spells the facts as types."""
    for old, new, paths in FACTS:
        for path in paths:
            path = os.path.join(ROOT, "crates", path)
            with open(path) as text:
                lines = text.read().split("\n")
            for k, line in enumerate(lines):
                word = r"(?<![\w.'-])%s(?![\w'-])" % old
                if line.lstrip().startswith("--"):
                    word += r"(?= [a-z] | [a-z]:| l | c )"
                lines[k] = re.sub(word, new, line)
            with open(path, "w") as out:
                out.write("\n".join(lines))


def main(argv):
    facts()
    made = table()
    if argv:
        for name in sorted(made):
            print(name, made[name])
        return 0
    back = {}
    for name, new in made.items():
        back.setdefault(new, []).append(name)
    bad = [f"{new}: {names}" for new, names in back.items() if len(names) > 1]
    texts = {path: open(path).read() for path in files()}
    for path, text in texts.items():
        tokens = set(re.findall(r"(?<![\w.])" + TOKEN.pattern, re.sub(r"(?m)^\s*--.*", "", text)))
        if path.endswith((".antt", ".edit")) and not path.endswith("/Proof.antt"):
            bad += [f"{path}: {name} and {made[name]}" for name in tokens & set(made) if made[name] in tokens - set(made) and (os.path.basename(path), name) not in APART]
    if bad:
        print("\n".join(bad), file=sys.stderr)
        return 1
    for path, text in texts.items():
        if path.endswith(".md"):
            new = re.sub(r"`[^`\n]+`", lambda m: TOKEN.sub(lambda t: made.get(t.group(), t.group()), m.group()), text)
        elif path.endswith(".rt"):
            # only camel case of clauses: a word of the code has none
            new = TOKEN.sub(lambda t: made.get(t.group(), t.group()) if re.search(r"[a-z][A-Z]|-", t.group()) else t.group(), text)
        else:
            new = TOKEN.sub(lambda t: made.get(t.group(), t.group()), text)
        if new != text:
            with open(path, "w") as out:
                out.write(new)
    return 0


if __name__ == "__main__":
    sys.exit(main(sys.argv[1:]))
