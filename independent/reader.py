"""The plan text of document 01: which texts are of the form, of which set, and the place of refusal 1.

A text is handled as a string with one character a byte.
"""

import re
from functools import lru_cache
from os.path import commonprefix

from model import HI, Job, Set
from refusals import GOOD

ANY = range(0, 65536)  # "Numbers are decimal, 0 to 65,535"


def lines_of(text):
    """The numbers of each line, or None where some line is no line of numbers: "Numbers are decimal, 0 to 65,535, without leading zeros; one
    space between, one LF after each line"."""
    if not text.endswith("\n"):
        return None
    lines = text[:-1].split("\n")
    number = "(0|[1-9][0-9]{0,4})"
    if not all(re.fullmatch("%s( %s)*" % (number, number), line) for line in lines):
        return None
    lines = [[int(word) for word in line.split(" ")] for line in lines]
    return lines if all(x in ANY for line in lines for x in line) else None


def set_of(text):
    """The set of a text of the form, or None.

    "Three sections in a fixed order, each after its count: jobs, LO order, HI order. A count stands on its own line; each job has a line
    `A D level LO HI` (level 0 or 1); an order has one line of numbers, and no line if its count is 0." "In the form itself the first count is
    1 to 64, the second equals it, and the third equals the number of jobs with level 1." "nothing after the last"
    """
    lines = lines_of(text)
    if lines is None or len(lines[0]) != 1 or not 1 <= lines[0][0] <= 64:
        return None
    N = lines[0][0]
    jobs, rest = lines[1 : 1 + N], lines[1 + N :]
    if len(jobs) != N or any(len(job) != 5 or job[2] not in (0, 1) for job in jobs):
        return None
    H = sum(1 for job in jobs if job[2] == HI)
    if [len(line) for line in rest] != ([1, N, 1, H] if H > 0 else [1, N, 1]):
        return None
    if rest[0] != [N] or rest[2] != [H]:
        return None
    return Set(tuple(Job(*job) for job in jobs), tuple(rest[1]), tuple(rest[3]) if H > 0 else ())


@lru_cache(maxsize=None)
def beginnings(allowed):
    """With what a number among the allowed ones can begin, and for each such beginning the lowest number that begins so (which is the
    beginning itself, where that is one of the numbers)."""
    lowest = {}
    for number in allowed:
        for length in range(len(str(number)) + 1):
            lowest.setdefault(str(number)[:length], number)
    return lowest


def nearest(text):
    """A text of the form that begins as the given text does for as long as any text of the form does.

    It is written number by number. Each is one of those that the form allows at that place, and of these one whose digits follow the given
    text longest. Whatever was chosen, the form allows some number next; and what follows a number is a space or LF, never a digit. So no other
    choice would follow the given text longer.
    """
    written = ""

    def write(allowed, after):
        nonlocal written
        rest = text[len(written) : len(written) + 6]
        length = 0
        while length < len(rest) and rest[: length + 1] in beginnings(allowed):
            length += 1
        number = beginnings(allowed)[rest[:length]]
        written += str(number) + after
        return number

    def write_order(count):
        for i in range(count):
            write(ANY, " " if i < count - 1 else "\n")

    N = write(range(1, 65), "\n")
    H = 0
    for _ in range(N):
        write(ANY, " ")
        write(ANY, " ")
        H += write(range(0, 2), " ")
        write(ANY, " ")
        write(ANY, "\n")
    write(range(N, N + 1), "\n")
    write_order(N)
    write(range(H, H + 1), "\n")
    write_order(H)
    return written


def read(text):
    """The refusal and the set of a text. "1 TEXT: the plan text is not of the form", the "length of the longest prefix that some well-formed
    text also begins with"."""
    other = nearest(text)
    s = set_of(text)
    # The other text is of the form; and it is the text itself exactly where that is.
    assert set_of(other) is not None and (other == text) == (s is not None)
    if s is not None:
        return GOOD, s
    return (1, len(commonprefix([text, other]))), None
