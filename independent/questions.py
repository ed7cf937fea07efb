"""Questions for the cases, in the language of answers.py: runs, tables, parts and picks, within their limits and past them."""

from model import longest, span


def spaced(word, numbers):
    """A word and numbers behind it."""
    return " ".join([word] + [str(x) for x in numbers])


def a_run(dice, s):
    """Running times within their ranges: any, mostly LO budgets, or mostly the largest; now and then there are some beyond N."""
    kind = dice.below(3)
    times = []
    for job in s.jobs:
        if kind == 0 or dice.below(3) == 0:
            times.append(dice.between(1, longest(job)))
        else:
            times.append(job.lo_budget if kind == 1 else longest(job))
    beyond = [0, 65535] if dice.below(6) == 0 and len(times) < 63 else []
    return spaced("run", times + beyond)


def a_run_outside(dice, s):
    """Running times of which some lie outside their range."""
    times = [dice.between(1, longest(job)) for job in s.jobs]
    for _ in range(dice.between(1, 2)):
        i = dice.below(len(times))
        times[i] = dice.choice([0, longest(s.jobs[i]) + 1, longest(s.jobs[i]) + 1, 65535])
    return spaced("run", times)


def enough_room(dice, s):
    more = [0, 0, 1, 3]
    return "tables in %d and %d" % (span(s) + dice.choice(more), span(s) + dice.choice(more))


def too_little_room(dice, s):
    """Room that is too short for one table or for both."""
    short = max(span(s) - dice.choice([1, 1, 2, 7]), 0)
    other = span(s) + dice.choice([-1, 0, 0, 2])
    return "tables in %d and %d" % dice.choice([(short, other), (other, short), (short, short), (0, other)])


def a_part(dice, s):
    """A part from an instant up to the table's end; the table now and then is longer than the span, or too short to be made."""
    n = span(s) + dice.choice([0, 0, 0, 1, 2, -1])
    return "part from %d of %d" % (dice.choice([dice.between(0, n), dice.between(0, n), n, n - 1 if n > 0 else 0]), n)


def a_part_past(dice, s):
    """A part from an instant past the table's end, by one or by so much that 16 or 32 bits would leave little of it."""
    n = span(s) + dice.choice([0, 0, 1, -1])
    wide = dice.choice([65536, 2**32]) + dice.between(0, n)
    return "part from %d of %d" % (dice.choice([n + 1, n + 1, n + 2, n + dice.between(1, 99), wide, wide, 2**64 - 1]), n)


def a_pick(dice, s):
    return spaced("at %d done" % dice.between(0, 6), [dice.below(2) for _ in s.jobs])


KINDS = (a_run, a_run, a_run_outside, enough_room, too_little_room, a_part, a_part_past, a_pick)

# Of a set that the checks refuse, each of these is refused by the same number, whatever else is wrong with the question.
OF_A_REFUSED_SET = (
    "finishes",
    "worst finishes",
    "margins",
    "run 1 1 1 1 1",
    "run 0 0 0",
    "tables in 0 and 30",
    "tables in 40 and 40",
    "part from 1 of 9",
)
