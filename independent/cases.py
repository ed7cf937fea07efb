#!/usr/bin/env python3
"""Makes the file of cases: sets and texts with questions, and behind each question its answer by document 01.

    python3 independent/cases.py > crates/comparison/data/cases.txt

The file is the same on every machine. Its language is that of answers.py; each line of an answer begins with `=`.
"""

import sys
from itertools import permutations, product

import texts
from answers import answered
from dice import Dice
from model import ALL_RUNS, HI, LO, Job, Set, hi_jobs, number_of_runs, numbers_of, worst_finishes
from questions import KINDS, OF_A_REFUSED_SET, a_part, a_part_past, a_run, a_run_outside, enough_room, spaced, too_little_room
from refusals import given
from sets import FAR, crowded, faulty, late_in_hi, late_in_lo, loose, one_below, rough, tight, with_deadline, with_long_span

# The lines so far, without the answers
LINES = []


def ask(*questions):
    LINES.extend("? " + question for question in questions)


def put_given(name, g):
    """The lines of a set as given."""
    LINES.append("set " + name)
    LINES.extend(spaced("job", job) for job in g.jobs)
    LINES.extend(spaced(word, order) for word, order in (("lo", g.lo_order), ("hi", g.hi_order)) if order)
    if (g.N, g.lo_count, g.hi_count) != (len(g.jobs), len(g.lo_order), len(g.hi_order)):
        LINES.append(spaced("counts", (g.N, g.lo_count, g.hi_count)))


def put(name, s):
    put_given(name, given(s))


def put_text(text):
    LINES.append(("text " + text.encode("latin-1").hex()).strip())
    ask("print")


# Groups of cases


def systematic():
    """All sets of one or two jobs of five kinds with arrivals 0 and 1: fit with every margin 0, and with one deadline one less."""
    kinds = [(LO, 1, 1), (LO, 2, 2), (HI, 1, 2), (HI, 1, 3), (HI, 2, 3)]
    number = 0
    for N in (1, 2):
        for chosen, arrivals in product(product(kinds, repeat=N), product((0, 1), repeat=N)):
            jobs = tuple(Job(A, FAR, *kind) for A, kind in zip(arrivals, chosen))
            orders = product(permutations(range(1, N + 1)), permutations(hi_jobs(Set(jobs, (), ()))))
            for lo_order, hi_order in orders:
                number += 1
                both_sides(number, Set(jobs, lo_order, hi_order))


def both_sides(number, s):
    """The set with every deadline at the worst finish; and with one of them one less, where that is still after the arrival."""
    for j, worst in zip(numbers_of(s), worst_finishes(s)):
        s = with_deadline(s, j, worst)
    put("each_%d" % number, s)
    ask("judge")
    j = number % len(s.jobs) + 1
    if s.jobs[j - 1].D > s.jobs[j - 1].A + 1:
        put("each_%d_less" % number, with_deadline(s, j, s.jobs[j - 1].D - 1))
        ask("judge")


def few_runs(dice, N, most):
    """A loose set with at most so many runs."""
    while True:
        s = loose(dice, N, dice.choice([0, 3, 6, 12]), dice.between(1, 3), dice.between(1, 3), dice.between(1, 4))
        if number_of_runs(s) <= most:
            return s


def small(dice):
    """Sets that all runs decide, with deadlines on both sides of the limits; each is asked some questions."""
    for number in range(300):
        s = few_runs(dice, dice.choice([1, 2, 3, 3, 4, 4, 5, 6]), ALL_RUNS // 2)
        s = dice.choice([tight, one_below, late_in_lo, late_in_lo, late_in_hi, rough])(dice, s)
        put_given("small_%d" % number, crowded(dice, given(s)) if number % 4 == 0 else given(s))
        ask("judge", "worst finishes", "margins")
        if number % 2 == 0:
            ask("finishes")
        if number % 3 == 0:
            ask("checks", "span")
        for _ in range(4):
            ask(dice.choice(KINDS)(dice, s))


def larger(dice):
    """Sets with too many runs to try: by the scenarios."""
    for number in range(60):
        s = loose(dice, dice.between(5, 12), dice.choice([0, 10, 30]), 6, 6, dice.between(1, 4))
        s = dice.choice([tight, one_below, late_in_lo, late_in_hi])(dice, s)
        put("larger_%d" % number, s)
        ask("judge", "worst finishes", "margins", a_run(dice, s), enough_room(dice, s))
        if number % 3 == 0:
            ask("finishes", a_part(dice, s))


def full(dice):
    """N = 64."""
    for number in range(10):
        s = loose(dice, 64, dice.choice([0, 40]), 2, 2, dice.between(1, 4))
        s = (tight, one_below, late_in_lo, late_in_hi)[number % 4](dice, s)
        put("full_%d" % number, s)
        ask("checks", "span", "judge", "worst finishes", "margins", enough_room(dice, s), a_run(dice, s), a_run_outside(dice, s))
        if number < 2:
            ask("finishes")
        put_text(texts.text_of(s))


def long_spans(dice):
    """Spans of 4,096, and some of 4,095: few long jobs, or a late arrival."""
    for number in range(16):
        s = loose(dice, dice.between(2, 3), dice.choice([0, 5, 900]), 400, 400, 2)
        s = with_long_span(dice, s, 4095 if number % 4 == 3 else 4096)
        s = (tight, one_below, late_in_hi)[number % 3](dice, s)
        put("long_%d" % number, s)
        ask("checks", "span", "judge", "worst finishes", "margins", enough_room(dice, s), too_little_room(dice, s), a_part(dice, s))
        ask("finishes", a_run(dice, s), a_part_past(dice, s))
        put_text(texts.text_of(s))


def faults(dice):
    """Sets with one fault, with two and with several, of numbers 2 to 7; some with rubbish in the room."""
    numbers = range(2, 8)
    chosen = [[k] for k in numbers] * 14 + [[k, m] for k in numbers for m in numbers if k < m] * 14
    chosen += [list(range(k, 8)) for k in numbers] * 6 + [[5, 6], [5, 7], [6, 7]] * 20 + [[2], [6]] * 20 + [[7]] * 90
    for number, kinds in enumerate(chosen):
        s = tight(dice, loose(dice, dice.between(2, 5), dice.choice([0, 4]), 3, 3, 3))
        g = faulty(dice, s, kinds)
        put_given("fault_%d" % number, crowded(dice, g) if number % 5 == 0 else g)
        ask("checks")
        if number % 4 == 0 and g.N in range(1, 65):
            ask("span")
        if number % 2 == 0:
            ask("judge", dice.choice(OF_A_REFUSED_SET))


def full_faults(dice):
    """N = 64, and a fault or two."""
    for number in range(24):
        s = loose(dice, 64, 40, 2, 2, 2)
        put_given("full_fault_%d" % number, faulty(dice, s, [number % 6 + 2, dice.between(number % 6 + 2, 7)]))
        ask("checks")


def set_texts(dice):
    """Texts of sets: fit, unfit in either way, and refused with 3 to 7."""
    for number in range(360):
        s = few_runs(dice, dice.between(1, 4), ALL_RUNS // 4)
        put_text(texts.text_of((tight, late_in_lo, late_in_hi, one_below, late_in_lo, late_in_hi)[number % 6](dice, s)))
    for number in range(300):
        s = tight(dice, loose(dice, dice.between(1, 4), 3, 3, 3, 3))
        first = number % 5 + 3
        g = faulty(dice, s, [first, dice.between(first, 7)] if number % 2 == 0 else [first])
        put_text(texts.text_of(Set(g.jobs, g.lo_order, g.hi_order)))


def other_texts(dice):
    """Damaged, cut, lengthened and random texts."""
    some = [texts.text_of(tight(dice, loose(dice, dice.between(1, 4), 9, 9, 9, 2))) for _ in range(20)] + [texts.P, texts.ONE, texts.PAIR]
    every = list(texts.damaged_everywhere(texts.ONE, lambda i: texts.BYTES))
    every += texts.damaged_everywhere(texts.P, lambda i: dice.some(texts.BYTES, 2))
    every += [texts.damaged(dice, dice.choice(some)) for _ in range(200)]
    every += [texts.damaged(dice, texts.damaged(dice, dice.choice(some)) + "\n") for _ in range(50)]
    every += texts.odd_numbers(texts.PAIR)
    for text in (texts.ONE, texts.P, texts.PAIR):
        every += [*texts.odd_counts(text), *texts.odd_lines(text), *texts.with_more(text)]
    every += [texts.random_text(dice, some) for _ in range(250)]
    every += texts.long_texts()
    for text in dict.fromkeys(every):
        put_text(text)


# The kinds of cases, each at least 100 strong

VERDICTS = ["fit", "unfit in LO", "unfit in HI"]
STRONG = (
    ["%s by %s" % (verdict, question) for verdict in VERDICTS for question in ("judge", "print")]
    + ["refusal %d" % number for number in range(1, 11)]
    + ["good " + question for question in ("checks", "finishes", "run", "tables", "part")]
    + ["at", "margins", "span", "worst"]
)


def kind(question, answer):
    """What is asked and how it is answered. A refused set counts once, by `checks`, and not by what else is asked of it."""
    words = answer[0].replace("|", " ").split()
    if words and words[0] in ("refused", "REFUSED"):
        once = int(words[1]) > 7 or question in ("checks", "print")
        return "refusal " + words[1] if once else "refused " + question
    if words and words[0] in ("FIT", "UNFIT"):
        return VERDICTS[0 if words[0] == "FIT" else 1 if words[1] == "0" else 2] + " by " + question
    return "good " + question if words and words[0] == "good" else question


def main():
    LINES.append("# Cases with their answers by document 01. Made by independent/cases.py, which says how; never written by hand.")
    systematic()
    small(Dice(1))
    larger(Dice(2))
    full(Dice(3))
    long_spans(Dice(4))
    faults(Dice(5))
    full_faults(Dice(6))
    set_texts(Dice(7))
    other_texts(Dice(8))
    counts = dict.fromkeys(STRONG, 0)
    for _, line, answer in answered(LINES):
        print(line)
        if answer is not None:
            print("\n".join("=" + words for words in answer))
            name = kind(line.split()[1], answer)
            counts[name] = counts.get(name, 0) + 1
    for name in counts:
        print("%5d %s" % (counts[name], name), file=sys.stderr)
    assert all(counts[name] >= 100 for name in STRONG)


if __name__ == "__main__":
    main()
