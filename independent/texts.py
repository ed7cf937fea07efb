"""Plan texts for the cases: good, damaged, cut short, too long, and random. One character of a string is one byte."""

from model import HI, LO, Job, Set, numbers_of

# Document 01, "Plan text and program": set P; and the shortest text of a set that passes the checks.
P = "3\n0 10 1 2 4\n1 6 1 1 3\n0 6 0 2 2\n3\n2 3 1\n2\n2 1\n"
ONE = "1\n0 1 0 1 1\n1\n1\n0\n"
PAIR = "2\n0 9 1 1 2\n3 8 0 4 4\n2\n2 1\n1\n1\n"

# Digits, the bytes next to them, what separates, signs, and bytes that are no text.
BYTES = "0169/: \n\r\t-+.a\x00\x80\xff"


def text_of(s):
    """The plan text of a set."""
    lines = [[len(s.jobs)]] + [list(job) for job in s.jobs]
    for order in (s.lo_order, s.hi_order):
        lines += [[len(order)], list(order)] if order else [[0]]
    return "".join(" ".join(map(str, line)) + "\n" for line in lines)


# One byte of damage


def deleted(text, i):
    return text[:i] + text[i + 1 :]


def inserted(text, i, byte):
    return text[:i] + byte + text[i:]


def changed(text, i, byte):
    return text[:i] + byte + text[i + 1 :]


def swapped(text, i):
    return text[:i] + text[i + 1 : i + 2] + text[i : i + 1] + text[i + 2 :]


def damaged_everywhere(text, bytes_at):
    """Every truncation, deletion and swap of a text, and at each place the bytes that bytes_at(i) gives inserted and put over."""
    for i in range(len(text)):
        yield text[:i]
        yield deleted(text, i)
        yield swapped(text, i)
        for byte in bytes_at(i):
            yield inserted(text, i, byte)
            yield changed(text, i, byte)


def damaged(dice, text):
    """One byte of damage of some kind at some place."""
    i = dice.below(len(text))
    byte = dice.choice(BYTES)
    return dice.choice([text[:i], deleted(text, i), swapped(text, i), inserted(text, i, byte), changed(text, i, byte)])


# Numbers and lines


def with_word(text, k, word):
    """The text with another word for its k-th number."""
    pieces = text.replace("\n", " \n ").split(" ")
    places = [i for i, piece in enumerate(pieces) if piece not in ("", "\n")]
    pieces[places[k]] = word
    return " ".join(pieces).replace(" \n ", "\n")


def odd_numbers(text):
    """Each number in turn replaced by those at the limits, by those past them, and by what is no number of the form."""
    words = "65535 65536 65540 65600 66000 70000 99999 100000 655350 6553 00 01 000 0 -1 +1 1. 0x1".split() + ["", "1 1", " 1"]
    for k in range(len(text.split())):
        for word in words:
            yield with_word(text, k, word)


def odd_counts(text):
    """Each of the three counts in turn replaced by other numbers."""
    N = int(text.split()[0])
    for k in (0, 1 + 5 * N, 2 + 6 * N):
        for count in "0 1 2 3 4 5 6 7 9 10 20 30 31 60 63 64 65 66 69 70 100 640 641 6400 64000 00 064".split():
            yield with_word(text, k, count)


def odd_lines(text):
    """Lines lost, doubled, swapped, joined, empty, and with other ends."""
    lines = text.split("\n")[:-1]
    for i in range(len(lines)):
        for others in ([], [lines[i]] * 2, ["", lines[i]], [lines[i] + " "], [" " + lines[i]], [lines[i] + "\r"]):
            yield "\n".join(lines[:i] + others + lines[i + 1 :]) + "\n"
        if i + 1 < len(lines):
            yield "\n".join(lines[:i] + [lines[i + 1], lines[i]] + lines[i + 2 :]) + "\n"
            yield "\n".join(lines[:i] + [lines[i] + " " + lines[i + 1]] + lines[i + 2 :]) + "\n"
    yield text.replace("\n", "\r\n")
    yield text.replace(" ", "  ")
    yield text.replace(" ", "\t")
    yield text.replace("\n", "\n\n")
    yield text.replace("\n", "|")


def with_more(text):
    """More behind the last LF, and no last LF."""
    for more in ("\n", " ", "\x00", "0", "1\n", "\r", "\n\n", "\x1a", text, text[:3]):
        yield text + more
        yield text[:-1] + more
    yield text[:-1]


# Long texts


def longest_text():
    """64 HI jobs and 65535 in every other place: 2,441 bytes, the longest text of the form."""
    text = text_of(Set((Job(65535, 65535, HI, 65535, 65535),) * 64, (65535,) * 64, (65535,) * 64))
    assert len(text) == 2441
    return text


def full_set(level):
    """64 jobs that are fit, just so."""
    s = Set((Job(0, 64 if level == LO else 128, level, 1, 1 if level == LO else 2),) * 64, (), ())
    return s._replace(lo_order=tuple(numbers_of(s)), hi_order=tuple(numbers_of(s)) if level == HI else ())


def long_texts():
    good = text_of(full_set(LO))
    longest = longest_text()
    yield good
    yield text_of(full_set(HI))
    yield longest
    yield longest[:-1]
    yield longest[:-1] + " "
    yield longest + "\n"
    yield good[:-1]
    yield good[:-3] + "1\n1\n"
    yield good + "\x00" * (4096 - len(good))
    yield good + "0" * (4500 - len(good))
    yield longest + "\n" * (4500 - len(longest))
    yield "\x00" * 4096
    yield "0" * 4500
    yield "1" * 4097
    yield "64\n" + "7" * 4093


# Random texts


def rubbish(dice, alphabet, longest):
    return "".join(dice.choice(alphabet) for _ in range(dice.between(0, longest)))


def random_text(dice, texts):
    """Random bytes, random words, or a good text that goes on at random."""
    every = "".join(map(chr, range(256)))
    words = ["0", "1", "2", "3", "64", "65", "65535", "65536", " ", " ", " ", "\n", "\n", "\n"]
    kind = dice.below(4)
    if kind == 0:
        return rubbish(dice, "0123456789 \n", 40)
    if kind == 1:
        return rubbish(dice, every, 40)
    if kind == 2:
        return "".join(dice.choice(words) for _ in range(dice.between(1, 30)))
    text = dice.choice(texts)
    return text[: dice.below(len(text))] + rubbish(dice, dice.choice(["0123456789 \n", "01 \n", every]), 30)
