"""What document 01 says of a set that passes the checks: its runs, the published test, and the two tables.

Written from the document's sentences, which stand quoted above what renders them, and from nothing else. A set is two lists of numbers and
a list of jobs; job j is jobs[j - 1]. Times, finishes and margins are tuples with the value of job j at place j - 1.
"""

from collections import namedtuple
from functools import lru_cache
from itertools import product
from math import prod

LO, HI = 0, 1

Job = namedtuple("Job", "A D level lo_budget hi_budget")
Set = namedtuple("Set", "jobs lo_order hi_order")
Run = namedtuple("Run", "slots finishes switch")
Miss = namedtuple("Miss", "scenario job finish times")

# A set with no more runs than this is judged by all of them.
ALL_RUNS = 1000


# The set


def numbers_of(s):
    """ "A set has N jobs, numbered 1 to N." """
    return range(1, len(s.jobs) + 1)


def is_hi(s, j):
    return s.jobs[j - 1].level == HI


def hi_jobs(s):
    return [j for j in numbers_of(s) if is_hi(s, j)]


def span(s):
    """ "The span is the largest arrival plus the sum of all HI budgets." """
    return max(job.A for job in s.jobs) + sum(job.hi_budget for job in s.jobs)


# One run


def longest(job):
    """ "A run gives each job a running time: 1 to its LO budget for a LO job, 1 to its HI budget for a HI job." """
    return job.hi_budget if job.level == HI else job.lo_budget


@lru_cache(maxsize=256)
def run(s, times):
    """ "Time goes in slots; slot t lies between instants t and t+1. The mode starts as LO. At each instant, in this order:" 1, 2 and 3 below.

    The slots are 0 for idle, else a job number; the switch is an instant, or None for never.
    """
    had = {j: 0 for j in numbers_of(s)}
    finish = {j: 0 for j in numbers_of(s)}
    mode, switch, slots = LO, None, []
    budgets = [(j, s.jobs[j - 1].lo_budget) for j in hi_jobs(s)]
    # "A run covers the slots before the span"
    for t in range(span(s)):
        # "1. If the mode is LO and a HI job has had exactly its LO budget and its running time is longer, the mode becomes HI and stays so."
        if mode == LO and any(had[j] == budget < times[j - 1] for j, budget in budgets):
            mode, switch = HI, t
        # "2. In HI mode every unfinished LO job, also one that arrives later, is dropped and never runs."
        # "3. Of the jobs that have arrived, are unfinished and not dropped, the highest in the order of the present mode gets the slot.
        # If there is none, the slot is idle."
        slot = 0
        for j in s.lo_order if mode == LO else s.hi_order:
            dropped = mode == HI and s.jobs[j - 1].level == LO
            if s.jobs[j - 1].A <= t and finish[j] == 0 and not dropped:
                slot = j
                break
        slots.append(slot)
        # "A job finishes at the end of the slot that completes its running time."
        if slot != 0:
            had[slot] += 1
            if had[slot] == times[slot - 1]:
                finish[slot] = t + 1
    # "by then every job that isn't dropped has finished"
    assert all(finish[j] != 0 or (mode == HI and not is_hi(s, j)) for j in numbers_of(s))
    # "Executing one given run answers each job's finish, 0 for a dropped job, and the instant of the switch if there is one."
    return Run(tuple(slots), tuple(finish[j] for j in numbers_of(s)), switch)


def late(s, times):
    """The "lowest-numbered late job whose deadline is required", or None.

    "It is late if that instant is after D." "A run without a switch requires every deadline; a run with one requires those of the HI jobs
    only."
    """
    r = run(s, times)
    for j in numbers_of(s):
        required = r.switch is None or is_hi(s, j)
        if required and r.finishes[j - 1] > s.jobs[j - 1].D:
            return j
    return None


# The published test


def scenarios(s):
    """ "Scenario 0 (LO)" and "Scenario J, for each HI job J", in the order "0, then J rising"."""
    return [0] + hi_jobs(s)


def scenario_times(s, J):
    """ "Scenario 0 (LO): every job runs for its LO budget. Scenario J: as scenario 0 until J has had its LO budget; then J and every HI job
    still unfinished run to their HI budgets. As running times: jobs other than J finished by that instant, and all LO jobs, have their LO
    budget; the others their HI budget." """
    lo_times = tuple(job.lo_budget for job in s.jobs)
    if J == 0:
        return lo_times
    finishes = run(s, lo_times).finishes
    instant = finishes[J - 1]
    times = []
    for j in numbers_of(s):
        finished_other = j != J and finishes[j - 1] <= instant
        if finished_other or not is_hi(s, j):
            times.append(s.jobs[j - 1].lo_budget)
        else:
            times.append(s.jobs[j - 1].hi_budget)
    return tuple(times)


def first_miss(s, among):
    """ "the answer names the first failing scenario (0, then J rising), in it the lowest-numbered late job whose deadline is required, its
    finish, and all running times"; None where none of these scenarios fails."""
    for J in among:
        times = scenario_times(s, J)
        j = late(s, times)
        if j is not None:
            return Miss(J, j, run(s, times).finishes[j - 1], times)
    return None


def number_of_runs(s):
    return prod(longest(job) for job in s.jobs)


def no_run_misses(s):
    """Whether in no run at all a required deadline is missed."""
    every = product(*(range(1, longest(job) + 1) for job in s.jobs))
    return all(late(s, times) is None for times in every)


def judge(s):
    """None for fit, else the miss.

    "The set is fit if no required deadline is missed in any scenario." The document's demand is about all runs; so where the runs are few,
    all of them are tried and they decide. The published test must then say the same, and it names the miss.
    """
    miss = first_miss(s, scenarios(s))
    fit = no_run_misses(s) if number_of_runs(s) <= ALL_RUNS else miss is None
    assert fit == (miss is None), "all runs and the published test differ: %r" % (s,)
    return None if fit else miss


def finish_rows(s):
    """Rows 0 to N. "one row for LO and one for each HI job, fit or not" "Row 0 is LO and row J that of HI job J; in every answer a row or
    place that belongs to no scenario or job concerned is 0." """
    nothing = (0,) * len(s.jobs)
    return [run(s, scenario_times(s, J)).finishes if J in scenarios(s) else nothing for J in range(len(s.jobs) + 1)]


def worst_finishes(s):
    """ "A job's worst finish is the largest finish in its rows; for a LO job only row LO counts." """
    rows = finish_rows(s)
    return tuple(max(row[j - 1] for row in rows) if is_hi(s, j) else rows[0][j - 1] for j in numbers_of(s))


def margins(s):
    """ "The margin is D minus the worst finish, .. negative exactly when the job is late somewhere." """
    return tuple(job.D - worst for job, worst in zip(s.jobs, worst_finishes(s)))


# The two tables


def lo_table(s):
    """ "The LO table is scenario 0." """
    return run(s, scenario_times(s, 0)).slots


def hi_table(s):
    """ "The HI table is made slot by slot. Let L(t) and H(t) be the slots that a HI job has had before t in the LO and HI tables." """
    lo = lo_table(s)
    hi = []
    L = {j: 0 for j in numbers_of(s)}
    H = {j: 0 for j in numbers_of(s)}
    for t in range(span(s)):
        slot = 0
        # "The enabled job highest in the HI order gets the slot."
        for j in s.hi_order:
            # "An unfinished HI job (H(t) below its HI budget) is enabled at t if one of these holds: (a) L(t) equals its LO budget;
            # (b) H(t) < L(t); (c) the LO table runs it in slot t."
            unfinished = H[j] < s.jobs[j - 1].hi_budget
            if unfinished and (L[j] == s.jobs[j - 1].lo_budget or H[j] < L[j] or lo[t] == j):
                slot = j
                break
        hi.append(slot)
        if lo[t] != 0:
            L[lo[t]] += 1
        if slot != 0:
            H[slot] += 1
    return tuple(hi)


def part(table, t):
    """ "the part of the HI table from that instant to its end" "An instant past the end gives the empty part" """
    return table[t:]
