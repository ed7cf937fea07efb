#!/usr/bin/env python3
"""What the program crates/analysis_tests must print for its cases, crates/analysis_tests/stdin.

    python3 independent/expected.py > crates/analysis_tests/stdout

Where document 01 or a source quotes an answer, it is asserted below.
"""

import os

import model
from answers import answered
from model import HI, LO, Job, Set

# What document 01 says of its sets, in its order, and what the sources say of theirs
QUOTED = """
P judge FIT times 0 0 0
P span 10
P worst finishes 8 4 3
P margins 2 2 3
P LO table 3 2 3 1 1 0 0 0 0 0
P HI table 0 2 2 2 1 1 1 1 0 0
P part from 2 of 10 good gives 2 2 1 1 1 1 0 0
P part from 10 of 10 good gives nothing
P part from 11 of 10 refused 10 11 gives nothing
P8 judge FIT times 0 0 0
P8 margins 0 2 3
P7 judge UNFIT 2 1 8 times 4 3 2
P6 judge UNFIT 1 1 7 times 4 1 2
P4 judge UNFIT 0 1 5 times 2 1 2
one judge FIT times 0
one_D0 judge refused 3 1 times 0
one_late judge UNFIT 0 1 2 times 2
long judge FIT times 0
longer judge refused 5 4097 times 0
Q judge refused 4 3 times 0 0 0
Q3 judge UNFIT 3 3 8 times 2 3 3
lowest_margin margins -4095
highest_margin margins 65534
000_1 judge FIT times 0 0 0 0 0
000_4 judge refused 4 4 times 0 0 0 0
001_III_1 judge FIT times 0 0 0 0
001_III_1 HI table 1 4 4 1 1 1 2 1 2 2 2 0 0 0 0 0 0 0 0 7
001_A_1 judge UNFIT 3 3 12 times 5 2 5
001_A_1_fit judge FIT times 0 0 0
""".strip().split("\n")


def check_quoted(lines):
    for line in QUOTED:
        assert line in lines, line
    # "Q .. Judged by scenarios 0 and 2 alone it would pass, yet with times 1 3 2 job 3 ends at 6."
    Q = Set((Job(0, 2, LO, 2, 2), Job(0, 10, HI, 1, 3), Job(2, 5, HI, 2, 2)), (1, 3, 2), (2, 3))
    assert model.first_miss(Q, [0, 2]) is None and model.run(Q, (1, 3, 2)).finishes[2] == 6
    # "Q with HI budget 3 for job 3 .. Run 2 3 2 ends job 3 at 4; run 1 3 2 ends it at 6."
    Q = Q._replace(jobs=Q.jobs[:2] + (Q.jobs[2]._replace(hi_budget=3),))
    assert model.run(Q, (2, 3, 2)).finishes[2] == 4 and model.run(Q, (1, 3, 2)).finishes[2] == 6

    def rest(start):
        return next(line[len(start) :].split() for line in lines if line.startswith(start + " "))

    # 000, Example 1: "In the LO scenario job J2 terminates at time 4, but in the HI-J2 scenario job J2 switches at time 4."
    assert rest("000_1 row 0")[1] == "4" and rest("000_1 run 12 8 2 7 2 good")[-2:] == ["switch", "4"]

    # 001, Example III.1: "If there is a switch at time 2 .. 4, 1 and 4", for J1, J4 and J2; at 4, 3 and 4 for J1 and J2; at 9, 2 for J2.
    def reserved(t, jobs):
        return [rest("001_III_1 part from %d of 19 good gives" % t).count(j) for j in jobs]

    assert reserved(2, "142") == [4, 1, 4] and reserved(4, "12") == [3, 4] and reserved(9, "2") == [2]
    # 001, Example IV.1: "No FPM policy would schedule it."
    assert sum(line.startswith("001_IV_1") and " UNFIT " in line for line in lines) == 12
    # "Room beyond a count is no part of the set": the answers are P's.
    for name in ("P_crowded", "P_full", "P_twice"):
        for line in lines:
            if line.startswith(name + " ") and " run " not in line:
                assert "P" + line[len(name) :] in lines, line


def main():
    here = os.path.dirname(os.path.abspath(__file__))
    with open(os.path.join(here, "..", "crates", "analysis_tests", "stdin"), encoding="ascii") as cases:
        lines = cases.read().split("\n")
    printed = []
    for name, line, answer in answered(lines):
        if answer is not None:
            # The name of the set, the question, and the first line of the answer; then the name and each further line.
            printed.append(name + line[1:] + answer[0])
            printed += [name + more for more in answer[1:]]
    check_quoted(printed)
    print("\n".join(printed))


if __name__ == "__main__":
    main()
