"""The language of the cases, and the answers: what a line builds, and what is to be said to each question.

A case builds a set or a text and asks questions of it:

    set NAME                  a new set, with no job and no order
    job A D LEVEL LO HI       one job more; with a sixth number, that many
    lo J ..   hi J ..         the LO order, the HI order
    counts N LO HI            the three counts as given, over whatever the room holds
    text HEX                  a plan text, two digits a byte
    ? QUESTION                one of those in ANSWERS below; `? print` is asked of the text, all others of the set

An answer is one line or several, each a string of words with a space before each word. Numbers of jobs stand for jobs 1 to N, and N above 64
has no places.
"""

import model
import reader
import refusals
from model import Job
from refusals import GOOD, Given


def spelled(numbers):
    return "".join(" %d" % x for x in numbers)


def said(refusal):
    return " good" if refusal == GOOD else " refused %d %d" % refusal


def entries(table):
    """Every entry; of more than 64, each stretch of equal entries and its length."""
    if len(table) == 0:
        return " nothing"
    if len(table) <= 64:
        return spelled(table)
    words, i = "", 0
    while i < len(table):
        end = i
        while end < len(table) and table[end] == table[i]:
            end += 1
        words += " %d x %d" % (table[i], end - i)
        i = end
    return words


def places(g):
    return g.N if g.N <= 64 else 0


def nothing(g):
    """ "running times, finishes, finish tables and margins come back all 0" """
    return (0,) * places(g)


def is_good(g):
    return refusals.refusal(g) == GOOD


def checks(g, n):
    return [said(refusals.refusal(g))]


def span(g, n):
    return [" %d" % model.span(refusals.the_set(g))]


def judge(g, n):
    """The verdict, or the refusal, and the running times beside it. "A fit answer has 0 in these places." """
    if not is_good(g):
        return [said(refusals.refusal(g)) + " times" + spelled(nothing(g))]
    miss = model.judge(refusals.the_set(g))
    if miss is None:
        return [" FIT times" + spelled(nothing(g))]
    return [" UNFIT" + spelled(miss[:3]) + " times" + spelled(miss.times)]


def finishes(g, n):
    rows = model.finish_rows(refusals.the_set(g)) if is_good(g) else [nothing(g)] * (places(g) + 1)
    return [said(refusals.refusal(g))] + [" row %d" % J + spelled(row) for J, row in enumerate(rows)]


def worst(g, n):
    return [spelled(model.worst_finishes(refusals.the_set(g)) if is_good(g) else nothing(g))]


def margins(g, n):
    return [spelled(model.margins(refusals.the_set(g)) if is_good(g) else nothing(g))]


def run(g, n):
    """The run with these times; of a job without one the time is 0, and times beyond N are no part of the run."""
    times = (tuple(n) + (0,) * 64)[: places(g)]
    refusal = refusals.run_refusal(g, times)
    r = model.run(refusals.the_set(g), times) if refusal == GOOD else model.Run((), nothing(g), None)
    switch = "never" if r.switch is None else str(r.switch)
    return [said(refusal) + " ends" + spelled(r.finishes) + " switch " + switch]


def made(g, lo_room, hi_room):
    """Both tables, made in lent room of so many entries that all held 7: "entries of the lent room beyond that stay untouched", and where there
    is a refusal "everything lent is untouched"."""
    lo, hi = (7,) * lo_room, (7,) * hi_room
    refusal = refusals.room_refusal(g, lo_room, hi_room)
    if refusal == GOOD:
        s = refusals.the_set(g)
        lo = model.lo_table(s) + lo[model.span(s) :]
        hi = model.hi_table(s) + hi[model.span(s) :]
    return refusal, lo, hi


def tables(g, n):
    refusal, lo, hi = made(g, n[0], n[1])
    return [said(refusal), " LO table" + entries(lo), " HI table" + entries(hi)]


def part(g, n):
    _, _, hi = made(g, n[1], n[1])
    return [said(refusals.part_refusal(hi, n[0])) + " gives" + entries(model.part(hi, n[0]))]


def at(g, n):
    """Who gets slot t by the LO order: the highest of the jobs that have arrived and are not done. An entry with no place among the jobs or
    the flags names no job."""
    s, t, done = refusals.the_set(g), n[0], n[1:]
    for j in s.lo_order:
        if 1 <= j <= min(len(s.jobs), len(done)) and s.jobs[j - 1].A <= t and done[j - 1] == 0:
            return [" gets %d" % j]
    return [" gets idle"]


ANSWERS = {f.__name__: f for f in (checks, span, judge, finishes, worst, margins, run, tables, part, at)}


def printed(text):
    """What the program `judge` prints: "FIT and the span; then for each job its number, worst finish and margin. An unfit set gives `UNFIT
    scenario job finish` and one line of the N running times in job order; a refusal gives `REFUSED number place`. Fields stand one space
    apart and each line ends in LF." "the program reads no more than 4,096"."""
    refusal, s = reader.read(text[:4096])
    if refusal == GOOD:
        refusal = refusals.refusal(refusals.given(s))
    if refusal != GOOD:
        return "REFUSED %d %d\n" % refusal
    miss = model.judge(s)
    if miss is not None:
        return "UNFIT %d %d %d\n" % miss[:3] + " ".join(map(str, miss.times)) + "\n"
    jobs = zip(model.numbers_of(s), model.worst_finishes(s), model.margins(s))
    return "FIT %d\n" % model.span(s) + "".join("%d %d %d\n" % job for job in jobs)


def built(g, word, n):
    """The set after a line that builds."""
    if word == "job":
        jobs = g.jobs + (Job(*n[:5]),) * (n[5] if len(n) > 5 else 1)
        return g._replace(jobs=jobs, N=len(jobs))
    if word == "lo":
        return g._replace(lo_order=tuple(n), lo_count=len(n))
    if word == "hi":
        return g._replace(hi_order=tuple(n), hi_count=len(n))
    if word == "counts":
        return g._replace(N=n[0], lo_count=n[1], hi_count=n[2])
    raise ValueError(word)


def numbers_in(words):
    return [int(word) for word in words if word.isdigit()]


def answered(lines):
    """Each line with the name of its set, and the lines of its answer, which is None for a line that asks nothing."""
    name, g, text = "", None, ""
    for line in lines:
        words = line.split()
        answer = None
        if line.startswith("set "):
            name, g = words[1], Given((), (), (), 0, 0, 0)
        elif line.startswith("text"):
            text = bytes.fromhex("".join(words[1:])).decode("latin-1")
        elif line == "? print":
            answer = [" " + printed(text).replace("\n", "|")]
        elif line.startswith("? "):
            answer = ANSWERS[words[1]](g, numbers_in(words))
        elif line and not line.startswith("#"):
            g = built(g, words[0], numbers_in(words))
        yield name, line, answer
