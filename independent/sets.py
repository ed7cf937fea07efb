"""Sets for the cases: good ones with deadlines on both sides of a limit, and sets with faults."""

from model import HI, LO, Job, Set, finish_rows, hi_jobs, numbers_of, span, worst_finishes
from refusals import given

FAR = 65535  # a deadline that no job misses


def with_job(s, j, **values):
    """The set with some values of job j changed."""
    return s._replace(jobs=s.jobs[: j - 1] + (s.jobs[j - 1]._replace(**values),) + s.jobs[j:])


def ordered(dice, jobs):
    """A set of these jobs with some orders."""
    s = Set(tuple(jobs), (), ())
    return s._replace(lo_order=tuple(dice.shuffled(numbers_of(s))), hi_order=tuple(dice.shuffled(hi_jobs(s))))


def loose(dice, N, arrival, budget, extra, hi_of_four):
    """A set that passes the checks, with deadlines that no job misses: arrivals, LO budgets and what HI budgets have more up to these, and so
    many of four jobs HI."""
    jobs = []
    for _ in range(N):
        level = HI if dice.below(4) < hi_of_four else LO
        lo_budget = dice.between(1, budget)
        hi_budget = lo_budget + dice.between(1, extra) if level == HI else lo_budget
        jobs.append(Job(dice.between(0, arrival), FAR, level, lo_budget, hi_budget))
    return ordered(dice, jobs)


def tight(dice, s):
    """The set with deadlines at or a little above the worst finishes: fit, and often with margin 0."""
    for j, worst in zip(numbers_of(s), worst_finishes(s)):
        s = with_job(s, j, D=worst + dice.choice([0, 0, 0, 1, 2, 9]))
    return s


def with_deadline(s, j, D):
    """The set with the deadline of job j at D, or as near as check 3 lets it be."""
    return with_job(s, j, D=max(D, s.jobs[j - 1].A + 1))


def that_can_be_late(dice, s, finishes):
    """Some job that finishes so late that its deadline can be before that and after its arrival; or any, where there is none."""
    return dice.choice([j for j in numbers_of(s) if finishes[j - 1] > s.jobs[j - 1].A + 1] or numbers_of(s))


def one_below(dice, s):
    """The tight set with a deadline, where that can be, one below the job's worst finish: unfit."""
    s = tight(dice, s)
    worst = worst_finishes(s)
    j = that_can_be_late(dice, s, worst)
    return with_deadline(s, j, worst[j - 1] - 1)


def late_in_lo(dice, s):
    """The tight set with a deadline, where that can be, below the job's finish in scenario 0."""
    s = tight(dice, s)
    row = finish_rows(s)[0]
    j = that_can_be_late(dice, s, row)
    return with_deadline(s, j, row[j - 1] - dice.between(1, 2))


def late_in_hi(dice, s):
    """The tight set with deadlines of some HI jobs below a finish in some row, but not below the one of row 0."""
    s = tight(dice, s)
    rows = finish_rows(s)
    for j in dice.some(hi_jobs(s), min(len(hi_jobs(s)), dice.between(1, 2))):
        row = rows[dice.choice(hi_jobs(s))]
        s = with_deadline(s, j, max(rows[0][j - 1], row[j - 1] - 1))
    return s


def rough(dice, s):
    """Deadlines with no regard to the finishes."""
    for j in numbers_of(s):
        s = with_deadline(s, j, s.jobs[j - 1].A + dice.between(1, 12))
    return s


def with_long_span(dice, s, length):
    """The set with a budget or an arrival so much larger that the span is of this length."""
    j = dice.choice(numbers_of(s))
    job, missing = s.jobs[j - 1], length - span(s)
    if dice.below(2) == 0:
        return with_job(s, j, A=max(other.A for other in s.jobs) + missing)
    if job.level == HI:
        return with_job(s, j, hi_budget=job.hi_budget + missing)
    return with_job(s, j, lo_budget=job.lo_budget + missing, hi_budget=job.hi_budget + missing)


# Sets with faults: each function puts a fault of its number into a set as given, whatever faults that has.


def changed_job(g, j, **values):
    return g._replace(jobs=g.jobs[: j - 1] + (g.jobs[j - 1]._replace(**values),) + g.jobs[j:])


def some_job(dice, g, level=None):
    """The number of some job, of this level if any is named and there is one."""
    of_level = [j for j, job in enumerate(g.jobs, 1) if level in (None, job.level)]
    return dice.choice(of_level or range(1, len(g.jobs) + 1))


def count_fault(dice, g):
    """N 0 or above 64, or an order's count off; by one, or so that 8, 16 or 32 bits would not show it."""
    off = dice.choice([1, -1, 2, 256, 65536, 2**32, 2**64 - 65])
    which = dice.below(5)
    if which == 0:
        return g._replace(N=dice.choice([0, 65, 66, 127, 128, 255, 256, 65535, 65536, 65536 + g.N, 2**32 + g.N, 2**63 + g.N]))
    if which == 1:
        return g._replace(N=0, lo_count=0, hi_count=0)
    if which == 2:
        return g._replace(lo_count=g.lo_count + off)
    return g._replace(hi_count=g.hi_count + (off if g.hi_count > 0 else abs(off)))


def time_fault(dice, g):
    """D = A, D one below A, or D 0."""
    j = some_job(dice, g)
    A = g.jobs[j - 1].A
    return changed_job(g, j, D=dice.choice([A, A, max(A - 1, 0), 0]))


def budget_fault(dice, g):
    """LO budget 0, a LO job with budgets that differ, a HI job whose HI budget is not above the LO budget."""
    j = some_job(dice, g)
    job = g.jobs[j - 1]
    low, budget = job.lo_budget, job.hi_budget
    if dice.below(3) == 0:
        return changed_job(g, j, lo_budget=0, hi_budget=dice.choice([0, budget]))
    if job.level == HI:
        return changed_job(g, j, hi_budget=dice.choice([low, low, max(low - 1, 0), 0]))
    return changed_job(g, j, hi_budget=dice.choice([low + 1, low - 1, 0, low + 5]))


def span_fault(dice, g):
    """A budget or an arrival so large that the span is 4,097, a little more, past 65,535, or so that 16 bits would leave little of it."""
    j = some_job(dice, g)
    job = g.jobs[j - 1]
    total = sum(other.hi_budget for other in g.jobs)
    goal = dice.choice([4097, 4097, 4097, 4098, 4352, 8192, 65535, 65536, 65537, 65536 + dice.between(2, 4096)])
    largest = max(other.A for other in g.jobs)
    if dice.below(2) == 0:
        A = min(max(goal - total, 0), 65534)
        return changed_job(g, j, A=A, D=dice.choice([A + 1, FAR]))
    budget = min(max(goal - largest - total + job.hi_budget, 2), 65535)
    low = budget if job.level == LO else dice.between(1, budget - 1)
    return changed_job(g, j, lo_budget=low, hi_budget=budget)


def changed_entry(order, i, entry):
    return order[:i] + (entry,) + order[i + 1 :]


def lo_order_fault(dice, g):
    """An entry of the LO order 0, above N, or one that stands elsewhere."""
    if not g.lo_order:
        return g
    i = dice.below(len(g.lo_order))
    N = len(g.jobs)
    entry = dice.choice([0, N + 1, N + 2, 64, 65, 255 + N, 65535, dice.choice(g.lo_order), dice.choice(g.lo_order)])
    return g._replace(lo_order=changed_entry(g.lo_order, i, entry))


def hi_order_fault(dice, g):
    """An entry of the HI order 0, above N, a LO job, or one that stands elsewhere."""
    if not g.hi_order:
        return g
    i = dice.below(len(g.hi_order))
    low = some_job(dice, g, LO)
    entry = dice.choice([0, len(g.jobs) + 1, 64, 65535, low, low, low, dice.choice(g.hi_order), dice.choice(g.hi_order)])
    return g._replace(hi_order=changed_entry(g.hi_order, i, entry))


FAULTS = {2: count_fault, 3: time_fault, 4: budget_fault, 5: span_fault, 6: lo_order_fault, 7: hi_order_fault}


def faulty(dice, s, numbers):
    """The set as given with a fault of each of these numbers, put in from the last to the first."""
    g = given(s)
    for number in sorted(numbers, reverse=True):
        g = FAULTS[number](dice, g)
    return g


def crowded(dice, g):
    """The set with rubbish in the room beyond its counts."""
    entries = [0, 1, 2, 3, 64, 65535]
    jobs = tuple(Job(dice.choice(entries), dice.choice(entries), dice.below(2), dice.below(9), dice.below(9)) for _ in range(3))
    rubbish = tuple(dice.choice(entries) for _ in range(6))
    return g._replace(
        jobs=(g.jobs + jobs)[:64], lo_order=(g.lo_order + rubbish[:3])[:64], hi_order=(g.hi_order + rubbish[3:])[:64]
    )
