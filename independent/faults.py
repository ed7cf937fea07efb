#!/usr/bin/env python3
"""Shows that a fault in the independent program would be noticed: the file of cases that it makes would not be the one kept.

    python3 independent/faults.py

Each fault is put into a copy of this folder, and the cases kept are answered there. A line a fault says how many answers are then others, or
`NOT NOTICED`. The program's own assertions are switched off for this, so it is the file that notices.
"""

import os
import shutil
import subprocess
import sys
import tempfile

HERE = os.path.dirname(os.path.abspath(__file__))
KEPT = os.path.join(HERE, "..", "crates", "comparison", "data", "cases.txt")

# What the fault is, and the changes that make it: the file, the words there, and the words in their place.
FAULTS = [
    (
        "the mode switches when a job reaches its LO budget and ends there",
        [("model.py", "had[j] == budget < times[j - 1] for", "had[j] == budget for")],
    ),
    (
        "in scenario J finished HI jobs are given their HI budget",
        [("model.py", "finished_other = j != J and finishes[j - 1] <= instant", "finished_other = False")],
    ),
    (
        "only scenario 0 is looked at, and no other run",
        [
            ("model.py", "miss = first_miss(s, scenarios(s))", "miss = first_miss(s, [0])"),
            ("model.py", "fit = no_run_misses(s) if number_of_runs(s) <= ALL_RUNS else miss is None", "fit = miss is None"),
        ],
    ),
    (
        "the LO order decides in HI mode too",
        [("model.py", "for j in s.lo_order if mode == LO else s.hi_order:", "for j in s.lo_order:")],
    ),
    (
        "a job that finishes at its deadline is late",
        [("model.py", "r.finishes[j - 1] > s.jobs[j - 1].D", "r.finishes[j - 1] >= s.jobs[j - 1].D")],
    ),
    (
        "the last failing scenario is named, not the first",
        [("model.py", "for J in among:", "for J in among[::-1]:")],
    ),
    (
        "a HI job's worst finish is that of row 0",
        [("model.py", "max(row[j - 1] for row in rows) if is_hi(s, j) else rows[0][j - 1]", "rows[0][j - 1]")],
    ),
    (
        "the HI table goes by the LO order",
        [("model.py", "        for j in s.hi_order:\n", "        for j in [i for i in s.lo_order if is_hi(s, i)]:\n")],
    ),
    (
        "the HI table is without rule (b)",
        [("model.py", " or H[j] < L[j] or lo[t] == j", " or lo[t] == j")],
    ),
    (
        "the HI table is without rule (c)",
        [("model.py", " or H[j] < L[j] or lo[t] == j", " or H[j] < L[j]")],
    ),
    (
        "a deadline equal to the arrival is accepted",
        [("refusals.py", "return not job.D > job.A", "return not job.D >= job.A")],
    ),
    (
        "a HI job with equal budgets is accepted",
        [("refusals.py", "return not job.hi_budget > job.lo_budget", "return not job.hi_budget >= job.lo_budget")],
    ),
    (
        "budgets are checked before deadlines",
        [("refusals.py", "    if lowest_job(s, time_broken):", "    if lowest_job(s, time_broken) and not lowest_job(s, budget_broken):")],
    ),
    (
        "each job is checked for 3 and 4 before the next job",
        [
            (
                "refusals.py",
                "    if lowest_job(s, time_broken):",
                "    if lowest_job(s, time_broken) and not (lowest_job(s, budget_broken) or 65) < lowest_job(s, time_broken):",
            )
        ],
    ),
    (
        "the HI order's count is not compared",
        [("refusals.py", "g.lo_count != g.N or g.hi_count != len(hi_jobs(the_set(g)))", "g.lo_count != g.N")],
    ),
    (
        "a span of 4,097 is accepted",
        [("refusals.py", "if span(s) > 4096:", "if span(s) > 4097:")],
    ),
    (
        "of two equal entries the first is the one that repeats",
        [("refusals.py", "entry in order[:i]", "entry in order[i + 1 :]")],
    ),
    (
        "only the room for the LO table is looked at",
        [("refusals.py", "lo_room < span(s) or hi_room < span(s)", "lo_room < span(s)")],
    ),
    (
        "a HI job may run for its LO budget only",
        [("refusals.py", "<= longest(s.jobs[j - 1]):", "<= s.jobs[j - 1].lo_budget:")],
    ),
    (
        "the instant equal to the table's length is refused",
        [("refusals.py", "if t > len(table)", "if t >= len(table)")],
    ),
    (
        "room beyond the counts is part of the set",
        [("refusals.py", "Job(0, 0, LO, 0, 0), g.N)", "Job(0, 0, LO, 0, 0), max(g.N, len(g.jobs)))")],
    ),
    (
        "65,536 is a number of a text",
        [("reader.py", "ANY = range(0, 65536)", "ANY = range(0, 65537)")],
    ),
    (
        "a number of a text may have a leading zero",
        [
            ("reader.py", '"(0|[1-9][0-9]{0,4})"', '"[0-9]{1,5}"'),
            (
                "reader.py",
                "            lowest.setdefault(",
                "            lowest.setdefault('0' + str(number)[:length], number)\n            lowest.setdefault(",
            ),
        ],
    ),
    (
        "a text without its last LF is read",
        [("reader.py", "    other = nearest(text)\n", "    text = text if text.endswith('\\n') else text + '\\n'\n    other = nearest(text)\n")],
    ),
    (
        "what stands behind the last LF is left unread",
        [("reader.py", "    other = nearest(text)\n", "    other = nearest(text)\n    text = other if text.startswith(other) else text\n")],
    ),
    (
        "the place of refusal 1 is that of the wrong byte, from 1",
        [("reader.py", "len(commonprefix([text, other]))", "len(commonprefix([text, other])) + 1")],
    ),
]


# Reads cases, and writes them with their answers.
ANSWER = """
import sys
from answers import answered
for _, line, answer in answered(sys.stdin.read().split("\\n")):
    print(line)
    for words in answer or ():
        print("=" + words)
"""


def answers_with(changes, cases):
    """The cases with the answers that a copy of the program gives with these changes, from question to question; None where it stops."""
    with tempfile.TemporaryDirectory() as folder:
        copy = os.path.join(folder, "independent")
        shutil.copytree(HERE, copy, ignore=shutil.ignore_patterns("__pycache__"))
        for file, old, new in changes:
            path = os.path.join(copy, file)
            with open(path, encoding="ascii") as opened:
                program = opened.read()
            assert program.count(old) == 1, "not once in %s: %s" % (file, old)
            with open(path, "w", encoding="ascii") as opened:
                opened.write(program.replace(old, new))
        result = subprocess.run([sys.executable, "-O", "-c", ANSWER], input=cases, capture_output=True, text=True, cwd=copy)
        return result.stdout.strip().split("\n?") if result.returncode == 0 else None


def main():
    with open(KEPT, encoding="ascii") as opened:
        kept = opened.read().strip()
    cases = "\n".join(line for line in kept.split("\n") if not line.startswith("="))
    kept = kept.split("\n?")
    assert answers_with([], cases) == kept, "without a fault the answers are not those kept"
    missed = 0
    for name, changes in FAULTS:
        given = answers_with(changes, cases)
        if given is None:
            said = "noticed, the program stops"
        elif given == kept:
            said = "NOT NOTICED"
            missed += 1
        else:
            said = "noticed by %d answers" % sum(one != other for one, other in zip(given, kept))
        print("%s: %s" % (said, name), flush=True)
    print("%d faults, %d not noticed" % (len(FAULTS), missed))
    return 1 if missed else 0


if __name__ == "__main__":
    sys.exit(main())
