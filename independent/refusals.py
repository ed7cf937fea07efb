"""The refusal numbers of document 01: a number and one place value, (0, 0) for good.

"The first that applies, in this order, is given." "Where no place is named it is 0." "Each check goes over all jobs before the next begins."
Number 1 is in reader.py.
"""

from collections import namedtuple

from model import HI, LO, Job, Set, hi_jobs, longest, numbers_of, span

GOOD = (0, 0)

# A set as it is given: what stands in the room for the jobs and the orders, and the three counts.
Given = namedtuple("Given", "jobs lo_order hi_order N lo_count hi_count")


def given(s):
    """A set with its counts."""
    return Given(s.jobs, s.lo_order, s.hi_order, len(s.jobs), len(s.lo_order), len(s.hi_order))


def the_set(g):
    """ "Room beyond a count is no part of the set." Room that nothing was put in holds 0."""

    def cut(values, nothing, count):
        return (tuple(values) + (nothing,) * 64)[:count]

    return Set(cut(g.jobs, Job(0, 0, LO, 0, 0), g.N), cut(g.lo_order, 0, g.lo_count), cut(g.hi_order, 0, g.hi_count))


def count_refused(g):
    """ "N is 0 or above 64, the LO order's count isn't N, or the HI order's isn't the number of HI jobs" """
    if g.N == 0 or g.N > 64:
        return True
    return g.lo_count != g.N or g.hi_count != len(hi_jobs(the_set(g)))


def time_broken(job):
    """ "D > A." """
    return not job.D > job.A


def budget_broken(job):
    """ "The LO budget is at least 1. A LO job has equal budgets. A HI job's HI budget is strictly above its LO budget." """
    if job.lo_budget < 1:
        return True
    if job.level == HI:
        return not job.hi_budget > job.lo_budget
    return job.hi_budget != job.lo_budget


def lowest_job(s, broken):
    """The lowest job that breaks a rule, or None."""
    for j in numbers_of(s):
        if broken(s.jobs[j - 1]):
            return j
    return None


def order_fault(order, jobs):
    """The "first such position, from 1": of an entry that is none of these jobs, or repeats; or None."""
    for i, entry in enumerate(order):
        if entry not in jobs or entry in order[:i]:
            return i + 1
    return None


def refusal(g):
    """Numbers 2 to 7."""
    if count_refused(g):
        return 2, g.N
    s = the_set(g)
    if lowest_job(s, time_broken):
        return 3, lowest_job(s, time_broken)
    if lowest_job(s, budget_broken):
        return 4, lowest_job(s, budget_broken)
    if span(s) > 4096:
        return 5, span(s)
    if order_fault(s.lo_order, numbers_of(s)):
        return 6, order_fault(s.lo_order, numbers_of(s))
    if order_fault(s.hi_order, hi_jobs(s)):
        return 7, order_fault(s.hi_order, hi_jobs(s))
    return GOOD


def room_refusal(g, lo_room, hi_room):
    """ "8 ROOM: a lent table is shorter than the span", after 2 to 7."""
    if refusal(g) != GOOD:
        return refusal(g)
    s = the_set(g)
    return (8, span(s)) if lo_room < span(s) or hi_room < span(s) else GOOD


def run_refusal(g, times):
    """ "9 RUN: a running time asked for lies outside its range", after 2 to 7."""
    if refusal(g) != GOOD:
        return refusal(g)
    s = the_set(g)
    for j in numbers_of(s):
        if not 1 <= times[j - 1] <= longest(s.jobs[j - 1]):
            return 9, j
    return GOOD


def part_refusal(table, t):
    """ "10 INSTANT: a part is asked for past the table's end", the instant."""
    return (10, t) if t > len(table) else GOOD
