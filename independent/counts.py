#!/usr/bin/env python3
"""What the program crates/comparison must print, from the file of cases alone.

    python3 independent/counts.py < crates/comparison/data/cases.txt > crates/comparison/stdout

Counts the questions by what stands behind the `=` of their first expected line: the verdict, else the number of the refusal, else the
question. There must be no difference. It knows nothing of the library. Standard library only.
"""

import sys

QUESTIONS = {
    "finishes": "rows",
    "run": "runs",
    "tables": "tables",
    "part": "parts",
    "worst": "worst finishes",
    "margins": "margins",
    "span": "spans",
    "at": "picks",
    "checks": "checks",
}
KINDS = ["fit", "unfit in LO", "unfit in HI"] + [f"refused {n}" for n in range(1, 11)] + list(QUESTIONS.values())


def kind(question, answer):
    """The kind of a question, as its words, by the words of the first line of its answer, which may be none."""
    first = answer[0] if answer else ""
    if first == "FIT":
        return "fit"
    if first == "UNFIT":
        return "unfit in LO" if answer[1] == "0" else "unfit in HI"
    if first in ("refused", "REFUSED"):
        return f"refused {answer[1]}"
    return QUESTIONS[question[0]]


def counts(lines):
    """How many questions there are of each kind."""
    found = dict.fromkeys(KINDS, 0)
    for line, following in zip(lines, lines[1:] + [""]):
        if line.startswith("?"):
            assert following.startswith("="), f"no answer stands behind: {line}"
            found[kind(line[1:].split(), following[1:].replace("|", " ").split())] += 1
    return found


if __name__ == "__main__":
    for name, count in counts(sys.stdin.read().split("\n")).items():
        print(name, count)
    print("differences 0")
