#!/usr/bin/env python3
"""Write a file of cases for the readers of flow texts, rulebook texts and jobs.

    generate.py SEED COUNT > CASES

The cases that are written out by hand below come first, and are the same for
every seed; random ones follow until there are COUNT. The same seed and count
always give the same file. A case is a job and the lengths of the four lists
that are lent for it.
"""

import sys
from random import Random

FULL = (2048, 1024, 2048, 1024)
LONGEST_TEXT = 32768

FORMS = "tfA|&<["
USED_PLACES = {"t": 0, "f": 0, "A": 1, "|": 2, "&": 2, "<": 2, "[": 2}

# A small flow and a small rulebook without fault, as lists of lines.
FLOW = ["F,3,2,2", "T,0,0,1", "U,2,1", "P,1,2"]
BOOK = ["R,G,2", "Q,0,A,1,0", "Q,1,<,0,1"]

# For each letter, a good line and the numbers of its number fields.
SAMPLES = {
    "F": ("F,3,2,2", (2, 3, 4)),
    "T": ("T,0,0,1", (2, 3, 4)),
    "U": ("U,2,1", (2, 3)),
    "P": ("P,1,2", (2, 3)),
    "R": ("R,G,2", (3,)),
    "Q": ("Q,0,A,1,0", (2, 4, 5)),
}

# Fields that are no numbers.
MALFORMED = (
    "", "a", "1a", "a1", "-1", "+1", " 1", "1 ", "1.0", "0x1", "/", ":", "1:",
    "000000", "000001", "100000", "\0", "1\0", "1\r", "\t1", "\x80", "\xb2", "9999999999",
)

# Numbers at the edges of ranges, and odd spellings of small ones.
EDGES = (
    "0", "1", "2", "63", "64", "65", "1023", "1024", "1025", "65535", "65536",
    "99999", "00000", "00001", "01", "010", "01024", "01025",
)

# Lines that are wrong in most places, or in all.
ODD_LINES = (
    "", ",", ",,,", "F", "T", "R", "Q", "X,0,0,0", "F,1,1,0", "T,0,0,0", "U,0,0",
    "P,0,0", "R,G,1", "Q,0,t,0,0", "RX", "R,", "\0", "\r", " T,0,0,0", "t,0,0,0",
)


# Building jobs


def as_bytes(text):
    """Text as bytes, one byte for each character."""
    return text.encode("latin-1")


def text_of(lines):
    """Lines joined to a text, each one ended."""
    return "".join(line + "\n" for line in lines)


def job_of(flow=FLOW, book=BOOK):
    """A job of a flow and a rulebook, each a list of lines."""
    return text_of(flow) + text_of(book)


def with_field(line, number, spelling):
    """The line with another spelling in one field; fields count from 1."""
    fields = line.split(",")
    fields[number - 1] = spelling
    return ",".join(fields)


def in_place(line):
    """A good job whose line of the same letter is this line instead."""
    return job_of(replace_first(FLOW, line), replace_first(BOOK, line))


def replace_first(lines, line):
    """The lines with the first one of the same letter replaced."""
    result = list(lines)
    for place, old in enumerate(lines):
        if old[0] == line[0]:
            result[place] = line
            break
    return result


def flows(*flow_lines):
    """A job of these flow lines and the good rulebook."""
    return job_of(flow=flow_lines)


def books(*book_lines):
    """A job of the good flow and these rulebook lines."""
    return job_of(book=book_lines)


def lent(lists, *jobs):
    """Cases of these jobs, with lists of these lengths."""
    return [(as_bytes(job), lists) for job in jobs]


def full(*jobs):
    """Cases of these jobs, with full lists."""
    return lent(FULL, *jobs)


# Cases written out by hand


def good_cases():
    """Jobs without fault."""
    every_form = [
        "R,L,7", "Q,0,t,0,0", "Q,1,f,0,0", "Q,2,A,1,0", "Q,3,|,0,1", "Q,4,&,2,3",
        "Q,5,<,1,4", "Q,6,[,0,6",
    ]
    return full(
        job_of(),
        books(*every_form),
        flows("F,1,1,0"),
        flows("F,3,2,2", "P,1,2", "U,2,1", "T,2,1,0", "T,0,0,1", "P,0,0", "U,0,0", "T,0,0,0"),
        flows("F,00003,0002,02", "T,00,000,0001", "U,00002,1", "P,1,002"),
        books("R,G,00002", "Q,00000,A,00001,00000", "Q,0001,<,0,01"),
        flows("F,1024,64,64", "T,1023,63,1023", "U,1023,63", "P,63,1023"),
        books("R,L,1", "Q,0,[,65535,65535"),
        job_of(["F,1,1,0", "T,0,0,0"], ["R,G,1", "Q,0,A,63,0"]),
    )


def boundary_cases():
    """Where the texts of a job begin and end."""
    return full(
        "",
        "\n",
        "\n\n\n",
        "\0",
        "\0\n",
        ".",
        "F",
        "R",
        "R\n",
        "RX",
        "RX\n",
        "\nR",
        "\nR\n",
        text_of(BOOK),
        text_of(BOOK) + text_of(FLOW),
        "R,G,1\n" + job_of(),
        "X\n" + job_of(),
        "\n" + job_of(),
        " " + job_of(),
        "\0" + job_of(),
        "\xef\xbb\xbf" + job_of(),
        text_of(FLOW),
        text_of(FLOW) + "R",
        text_of(FLOW) + "RX",
        text_of(FLOW) + "RX\n",
        text_of(FLOW) + "RX\n" + text_of(BOOK),
        text_of(FLOW) + "R\n",
        text_of(FLOW) + "R\0\n",
        text_of(FLOW) + "R,\n",
        text_of(FLOW) + "r,G,1\nQ,0,t,0,0\n",
        text_of(FLOW) + "\n" + text_of(BOOK),
        text_of(FLOW) + "\n",
        text_of(FLOW) + "\n\n\n",
        text_of(FLOW) + "\0" + text_of(BOOK),
        text_of(FLOW) + " " + text_of(BOOK),
        text_of(FLOW) + "Q,0,t,0,0\n",
        text_of(FLOW) + "Q,0,t,0,0\n" + text_of(BOOK),
        text_of(FLOW) + text_of(BOOK) + "\n",
        text_of(FLOW) + text_of(BOOK) + "\0",
        text_of(FLOW) + text_of(BOOK) + "R",
        text_of(FLOW) + text_of(BOOK) + "T,0,0,1\n",
        text_of(FLOW) + text_of(BOOK) + text_of(FLOW) + text_of(BOOK),
        "F,3,2,2\n" + text_of(BOOK) + "T,0,0,1\n",
        "F,3,2,2\nR,T,0,0\nT,0,0,1\n" + text_of(BOOK),
        "F,3,2,2\nT,R,0,1\n" + text_of(BOOK),
        "F,3,2,2\n,R,G,1\n" + text_of(BOOK),
        "T,0,0,1\nF,3,2,2\n" + text_of(BOOK),
        "T,0,0,1\n",
        "Q,0,t,0,0\n" + text_of(BOOK),
        "F,3,2,2\nF,3,2,2\n" + text_of(BOOK),
        "F,3,2,2\nT,0,0,1\nF,0,x\n" + text_of(BOOK),
        text_of(FLOW) + "R,G,1\nR,G,1\nQ,0,t,0,0\n",
        text_of(FLOW) + "R,G,1\nQ,0,t,0,0\nR,G,1\n",
    )


def ending_cases():
    """Lines that end otherwise than in byte 10, or not at all."""
    good = job_of()
    return full(
        good[:-1],
        good[:-2],
        text_of(FLOW)[:-1],
        "F,3,2,2",
        "F,3,2,x",
        "F,3,2,2\nT,0,0,1",
        "F,3,2,2\nT,9,9,9",
        "F,3,2,2\nU,x",
        "F,3,2,2\nT,0,0,1\nT,0,0,1",
        text_of(FLOW) + "R,G,2",
        text_of(FLOW) + "R,G,2\nQ,0,t,0,0",
        text_of(FLOW) + "R,G,2\nQ,0,t,0,0\nQ,1,t,0,0",
        text_of(FLOW) + "R,G,1\nQ,0,t,0,0\nQ,1,t,0,0",
        text_of(FLOW) + "R,G,1\nQ,0,t,0,0\n ",
        good.replace("\n", "\r\n"),
        good.replace("\n", "\r"),
        good.replace("T,0,0,1\n", "T,0,0,1\r\n"),
        good.replace("F,3,2,2\n", "F,3,2,2\r\n"),
        good.replace("R,G,2\n", "R,G,2\r\n"),
        good.replace("Q,0,A,1,0\n", "Q,0,A,1,0\r\n"),
        good.replace("U,2,1\n", "U,2,1\0"),
        good.replace("U,2,1\n", "U,2,1\0\n"),
        good.replace("U,2,1", "U\0,2,1"),
        good.replace("Q,1,<", "Q,1,\0"),
        good.replace("R,G", "R,G\0"),
        good.replace(",", ";"),
        good.replace(",", ", "),
    )


def form_cases():
    """Lines of no known form."""
    jobs = []
    for letter, (line, _) in SAMPLES.items():
        rest = line[1:]
        jobs += [
            in_place(line + ","),
            in_place(line + ",0"),
            in_place(line.rpartition(",")[0]),
            in_place(letter),
            job_of().replace(line, letter.lower() + rest, 1),
            job_of().replace(line, letter * 2 + rest, 1),
            job_of().replace(line, rest, 1),
            job_of().replace(line, "", 1),
        ]
    for side in ("g", "l", "", "GL", "GG", "0", " ", "t", "\xc7"):
        jobs.append(in_place("R,%s,2" % side))
    for form in ("T", "F", "a", "", "||", "A ", "0", ">", "]", "?", "\r", "\xfc"):
        jobs.append(in_place("Q,0,%s,1,0" % form))
    return full(*jobs)


def malformed_cases():
    """Number fields that are no numbers: each field with some of the spellings."""
    jobs = []
    turn = 0
    for line, places in SAMPLES.values():
        for place in places:
            for _ in range(4):
                spelling = MALFORMED[turn % len(MALFORMED)]
                jobs.append(in_place(with_field(line, place, spelling)))
                turn += 1
    for form in FORMS:
        for place in (4, 5):
            jobs.append(in_place(with_field("Q,0,%s,0,0" % form, place, MALFORMED[turn % 8])))
            turn += 1
    return full(*jobs)


def range_cases():
    """Numbers on both sides of the ends of their ranges."""
    jobs = [flows(line) for line in count_lines()]
    for line in (
        "T,2,0,0", "T,3,0,0", "T,0,1,0", "T,0,2,0", "T,0,0,2", "T,0,0,3", "T,00003,0,0",
        "T,65536,0,0", "T,0,99999,0", "T,0,0,65535", "U,2,0", "U,3,0", "U,0,2", "U,0,65536",
        "U,65535,0", "P,1,0", "P,2,0", "P,0,3", "P,65536,0", "P,0,99999", "P,3,1",
    ):
        jobs.append(in_place(line))
    jobs += [
        flows("F,1,1,0", "P,0,0"),
        flows("F,1,1,1", "P,0,0"),
        flows("F,1024,1,0", "T,1023,0,1023", "T,1024,0,0"),
        flows("F,1,64,0", "U,0,63", "U,0,64"),
        flows("F,1,1,64", "P,63,0", "P,64,0"),
    ]
    for length in ("0", "00000", "1", "2", "3", "1024", "01024", "1025", "65535", "65536", "99999"):
        jobs.append(books("R,G,%s" % length, "Q,0,t,0,0", "Q,1,f,0,0"))
    return full(*jobs) + full(*equation_range_jobs())


def count_lines():
    """Lines `F` at the edges of their ranges."""
    states = ["F,%s,1,1" % number for number in ("0", "1", "1024", "1025", "65535", "65536", "99999")]
    actions = ["F,1,%s,1" % number for number in ("0", "1", "64", "65", "1024", "65536", "99999")]
    atoms = ["F,1,1,%s" % number for number in ("0", "00000", "64", "00064", "65", "65536", "99999")]
    return states + actions + atoms


def equation_range_jobs():
    """Equations of each form with used and unused places at their edges."""
    jobs = []
    for form in FORMS:
        used = USED_PLACES[form]
        for place in (4, 5):
            line = "Q,0,%s,0,0" % form
            numbers = ("65535", "65536") if place - 4 < used else ("1", "00000", "99999")
            jobs += [books("R,G,1", with_field(line, place, number)) for number in numbers]
    for index in ("65535", "65536", "99999"):
        jobs.append(books("R,L,1", "Q,%s,t,0,0" % index))
    return jobs


def repeat_cases():
    """Records that come twice, spelt alike or otherwise."""
    return full(
        flows("F,3,2,2", "T,0,0,1", "T,0,0,1"),
        flows("F,3,2,2", "T,0,0,1", "T,00,0,1"),
        flows("F,3,2,2", "T,0,0,00001", "T,0,1,1", "T,00000,00,1"),
        flows("F,3,2,2", "U,2,1", "U,02,001"),
        flows("F,3,2,2", "U,2,1", "T,2,1,0", "P,1,2", "U,2,1"),
        flows("F,3,2,2", "P,1,2", "P,1,2"),
        flows("F,3,2,2", "P,1,2", "P,00001,2"),
        flows("F,3,2,2", "P,1,1", "U,1,1", "P,01,01"),
        flows("F,3,2,2", "U,2,1", "U,0,0", "U,2,01"),
        flows("F,3,2,2", "P,1,2", "P,0,0", "P,0,1", "P,01,2"),
        flows("F,3,2,2", "U,1,1", "P,1,1"),
        flows("F,3,2,2", "T,0,1,0", "T,1,0,0", "T,0,0,1", "U,0,1", "U,1,0", "P,0,1", "P,1,0"),
        flows("F,12,12,0", "T,1,11,1", "T,11,1,1", "T,1,1,11", "U,1,11", "U,11,1"),
        flows("F,1024,64,0", "T,1,0,0", "T,257,0,0", "T,1,0,256", "T,0,1,0"),
    )


def room_cases():
    """Lists that are shorter than the records, just long enough, or over the limits."""
    three = job_of(
        ["F,3,2,2", "T,0,0,1", "U,0,0", "P,0,0", "T,0,0,2", "U,0,1", "P,0,1", "P,0,2"],
        ["R,G,3", "Q,0,t,0,0", "Q,1,f,0,0", "Q,2,&,0,1"],
    )
    repeated = flows("F,3,2,2", "T,0,0,1", "T,0,0,1")
    cases = []
    for lists in (
        (2, 2, 3, 3), (1, 2, 3, 3), (2, 1, 3, 3), (2, 2, 2, 3), (2, 2, 3, 2), (2, 2, 3, 0),
        (0, 0, 0, 0), (0, 2, 3, 3), (2, 0, 3, 3), (2, 2, 0, 3), (1, 1, 1, 1), (3, 3, 3, 3),
        (3000, 3000, 3000, 3000), (2049, 1025, 2049, 1025),
    ):
        cases += lent(lists, three)
    cases += lent(
        (1, 1, 1, 1),
        repeated,
        flows("F,3,2,2", "U,0,1", "U,00,1"),
        flows("F,3,2,2", "P,0,1", "P,0,1"),
        flows("F,3,2,2", "T,0,0,1", "T,0,0,9"),
    )
    cases += lent((0, 0, 0, 0), flows("F,3,2,2"), repeated, flows("F,3,2,2", "T,x,0,0"))
    cases += lent((0, 0, 0, 0), books("R,G,1"), books("R,G,1", "Q,1,t,0,0"), "", "R\n")
    cases += lent(
        (3, 3, 3, 1),
        books("R,G,1", "Q,0,t,0,0", "Q,1,t,0,0"),
        books("R,G,2", "Q,0,t,0,0", "Q,1,t,0,0"),
        books("R,G,2", "Q,0,t,0,0", "Q,2,t,0,0"),
        books("R,G,2", "Q,0,t,0,0", "Q,1,t,1,0"),
        books("R,G,2", "Q,0,t,0,0"),
    )
    return cases


def turn_cases():
    """Equations out of turn, too many and missing."""
    first, second = "Q,0,t,0,0", "Q,1,f,0,0"
    return full(
        books("R,G,1", second),
        books("R,G,2", first, first),
        books("R,G,2", second, first),
        books("R,G,2", first, "Q,2,t,0,0"),
        books("R,G,2", first, "Q,00001,t,0,0"),
        books("R,G,3", first, second, "Q,65535,t,0,0"),
        books("R,G,2", first),
        books("R,G,2"),
        books("R,G,1024", first, second),
        books("R,G,1", first, second),
        books("R,G,1", first, first),
        books("R,G,1", first, "Q,65535,t,0,0"),
        books("R,G,1", first, "Q,65536,t,0,0"),
        books("R,G,1", first, "Q,1,t,1,0"),
        books("R,G,1", first, "Q,1,A,0,1"),
        books("R,G,1", first, "Q,x,t,0,0"),
        books("R,G,1", first, "Q,1,t,0,"),
        books("R,G,1", first, "Q,7,?,0,0"),
        books("R,G,1", first, "Q,1,t,0"),
        books("R,G,1", first, ""),
        books("R,G,1", first, second, ""),
        books("R,G,1", first, "", second),
        books("R,G,1", first, "T,0,0,1"),
    )


def order_cases():
    """Two faults, in one line or in two."""
    return full(
        flows("F,0,x,0"),
        flows("F,0,0,65"),
        flows("F,x,,y"),
        flows("F,1025,65,x"),
        flows("F,0,x"),
        flows("F,3,2,2", "T,9,9,9"),
        flows("F,3,2,2", "T,9,9,x"),
        flows("F,3,2,2", "T,0,9,9"),
        flows("F,3,2,2", "T,9,x,000000"),
        flows("F,3,2,2", "T,9,x"),
        flows("F,3,2,2", "U,9,"),
        flows("F,3,2,2", "U,9,9"),
        flows("F,3,2,2", "P,9,9"),
        flows("F,3,2,2", "P,2,a"),
        flows("F,3,2,2", "T,0,0,9", "T,x,0,0"),
        flows("F,3,2,2", "T,0,0,1", "T,0,0,1", "T"),
        flows("F,3,2,2", "T,x,0,0", "T,0,0,9"),
        flows("F,0,2,2", "T"),
        flows("F,3,2,2", "U,0,0", "P,0,0", "", "T,9,9,9"),
        books("R,X,x"),
        books("R,X,0"),
        books("R,G,0", "Q"),
        books("R,G,2", "Q,1,t,1,0"),
        books("R,G,2", "Q,1,t,0,x"),
        books("R,G,2", "Q,65536,t,1,1"),
        books("R,G,2", "Q,65536,t,1,x"),
        books("R,G,2", "Q,x,t,y,z"),
        books("R,G,2", "Q,1,?,x,0"),
        books("R,G,2", "Q,1,A,65536,1"),
        books("R,G,2", "Q,1,A,1,1"),
        books("R,G,2", "Q,1,|,65536,65536"),
        books("R,G,2", "Q,1,t,0,0", "Q,0,?,0,0"),
        books("R,G,2", "Q,0,t,0,0", "Q,0,t,0,0", "Q"),
        books("R,G,3", "Q,0,t,0,0", "Q,1,f,0,1"),
        job_of(["F,3,2,2", "T"], ["R,X,1"]),
        job_of(["F,3,2,2", "T,0,0,1", "T,0,0,1"], []),
        job_of(["F,0,2,2"], ["R,G,1", "Q,0,t,0,0", ""]),
    )


# Long jobs


def transitions(count):
    """So many different transitions, for a flow of at least 24 states and 10 actions."""
    return ["T,%d,%d,%d" % (n // 10 % 10, n % 10, n // 100) for n in range(count)]


def divergences(count):
    """So many different divergences, for a flow of at least 104 states and 10 actions."""
    return ["U,%d,%d" % (n // 10, n % 10) for n in range(count)]


def labels(count):
    """So many different labels, for a flow of at least 207 states and 10 atoms."""
    return ["P,%d,%d" % (n % 10, n // 10) for n in range(count)]


def equations(count):
    """So many equations in turn."""
    return ["Q,%d,%s,0,0" % (n, FORMS[n % len(FORMS)]) for n in range(count)]


def padded(job, size):
    """A job made longer with leading zeros, up to the size; its meaning stays.

    The first number of each transition takes up to four zeros, so a job of few
    transitions stays shorter than the size.
    """
    lines = job.split("\n")
    missing = size - len(job)
    for place, line in enumerate(lines):
        if missing <= 0:
            break
        if line.startswith("T,"):
            zeros = min(missing, 4)
            lines[place] = "T," + "0" * zeros + line[2:]
            missing -= zeros
    return "\n".join(lines)


def long_cases():
    """A handful of jobs at the limits of bytes and records."""
    counts = "F,210,10,10"
    end = ["R,L,1", "Q,0,t,0,0"]
    largest = job_of([counts] + transitions(2048), ["R,G,1024"] + equations(1024))
    over = (3000, 3000, 3000, 3000)
    return (
        full(padded(largest, LONGEST_TEXT), padded(largest, LONGEST_TEXT + 1))
        + full("F,3,2," + "0" * (LONGEST_TEXT - 7) + "\n")
        + full("\n" * (LONGEST_TEXT + 1))
        + lent(over, job_of([counts] + transitions(2049), end))
        + lent((2048, 3000, 2048, 1024), job_of([counts] + divergences(1024) + labels(2048), end))
        + lent(over, job_of([counts] + divergences(1025), end))
        + lent((0, 0, 2049, 1), job_of([counts] + labels(2049), end))
        + lent(over, job_of(["F,1,1,0"], ["R,G,1024"] + equations(1025)))
    )


def written_cases():
    """All cases written out by hand, the short ones first and none twice."""
    chosen = (
        good_cases()
        + boundary_cases()
        + ending_cases()
        + form_cases()
        + malformed_cases()
        + range_cases()
        + repeat_cases()
        + room_cases()
        + turn_cases()
        + order_cases()
        + long_cases()
    )
    return list(dict.fromkeys(chosen))


# Random cases


def random_number(rng, count):
    """A number below the count, at times spelt with leading zeros."""
    number = str(rng.randrange(count))
    if rng.random() < 0.1:
        number = number.zfill(rng.randint(1, 5))
    return number


def random_flow(rng):
    """The lines of a random flow without fault."""
    if rng.random() < 0.15:
        states, actions, atoms = rng.randint(1, 1024), rng.randint(1, 64), rng.randint(0, 64)
    else:
        states, actions, atoms = rng.randint(1, 5), rng.randint(1, 3), rng.randint(0, 3)
    lines = ["F,%d,%d,%d" % (states, actions, atoms)]
    seen = []
    for _ in range(rng.randint(0, 7)):
        line = random_record(rng, states, actions, atoms)
        record = meaning(line)
        if record not in seen:
            seen.append(record)
            lines.append(line)
    return lines


def random_record(rng, states, actions, atoms):
    """A random line `T`, `U` or `P` for a flow of these counts."""
    letter = rng.choice("TTUP" if atoms else "TTU")
    counts = {"T": (states, actions, states), "U": (states, actions), "P": (atoms, states)}[letter]
    return ",".join([letter] + [random_number(rng, count) for count in counts])


def meaning(line):
    """A record's letter and numbers, however these are spelt."""
    letter, *numbers = line.split(",")
    return [letter] + [int(number) for number in numbers]


def random_book(rng):
    """The lines of a random rulebook without fault."""
    length = rng.randint(1, 5)
    lines = ["R,%s,%d" % (rng.choice("GL"), length)]
    for index in range(length):
        form = rng.choice(FORMS)
        top = 65536 if rng.random() < 0.05 else 4
        places = [random_number(rng, top if place < USED_PLACES[form] else 1) for place in (0, 1)]
        lines.append(",".join(["Q", str(index), form] + places))
    return lines


def random_lines(rng):
    """The lines of a random job without fault."""
    return random_flow(rng) + random_book(rng)


def random_byte(rng):
    """A byte, mostly one of those that the formats use."""
    if rng.random() < 0.2:
        return rng.randrange(256)
    return rng.choice(b"FTUPRQGLtfA|&<[,,,\n\n\n0123456789\r\0 ")


def edit_bytes(rng, job):
    """The job after one to three edits of single bytes."""
    job = bytearray(job)
    for _ in range(rng.randint(1, 3)):
        place = rng.randrange(len(job))
        edit = rng.choice(("delete", "insert", "replace", "swap"))
        if edit == "insert":
            job.insert(place, random_byte(rng))
        elif edit == "replace":
            job[place] = random_byte(rng)
        elif edit == "swap":
            other = rng.randrange(len(job))
            job[place], job[other] = job[other], job[place]
        elif len(job) > 1:
            del job[place]
    return bytes(job)


def edit_fields(rng, lines):
    """The lines with other spellings in one to three fields."""
    lines = list(lines)
    for _ in range(rng.randint(1, 3)):
        place = rng.randrange(len(lines))
        field = rng.randint(2, lines[place].count(",") + 1)
        spelling = rng.choice(rng.choice((MALFORMED, EDGES, EDGES)))
        lines[place] = with_field(lines[place], field, spelling)
    return lines


def edit_lines(rng, lines):
    """The lines after one or two of them were moved, lost, doubled or put in."""
    lines = list(lines)
    for _ in range(rng.randint(1, 2)):
        place, other = rng.randrange(len(lines)), rng.randrange(len(lines))
        edit = rng.choice(("lose", "double", "swap", "put in", "respell"))
        if edit == "double":
            lines.insert(other, lines[place])
        elif edit == "swap":
            lines[place], lines[other] = lines[other], lines[place]
        elif edit == "put in":
            lines.insert(place, rng.choice(ODD_LINES))
        elif edit == "respell":
            lines.insert(place + 1, lines[place].replace(",", ",0", 1))
        elif len(lines) > 1:
            del lines[place]
    return lines


def random_soup(rng):
    """A few random bytes, at times behind a good line `F`."""
    start = b"F,3,2,2\n" if rng.random() < 0.5 else b""
    return start + bytes(random_byte(rng) for _ in range(rng.randint(0, 40)))


def random_cut(rng, job):
    """The job without its end, or without its beginning."""
    place = rng.randrange(len(job))
    return job[:place] if rng.random() < 0.7 else job[place:]


def random_long(rng):
    """A long job about the limits of bytes or of records."""
    flow = ["F,210,10,10"] + rng.choice(
        (
            transitions(rng.randint(2046, 2050)),
            divergences(rng.randint(1022, 1026)),
            labels(rng.randint(2046, 2050)),
        )
    )
    count = rng.choice((1, rng.randint(1022, 1026)))
    job = job_of(flow, ["R,G,%d" % min(count, 1024)] + equations(count))
    return as_bytes(padded(job, rng.choice((0, 0, LONGEST_TEXT - 1, LONGEST_TEXT, LONGEST_TEXT + 1))))


def random_lists(rng):
    """The lengths of four lists: mostly full, at times short or over the limits."""
    lot = rng.random()
    if lot < 0.75:
        return FULL
    if lot < 0.95:
        return tuple(rng.choice((0, 1, 2, 3, 3, length)) for length in FULL)
    return tuple(rng.choice((length, length + 1, 3000)) for length in FULL)


def random_job(rng):
    """A random job, with or without fault."""
    lot = rng.random()
    if lot < 0.002:
        return random_long(rng)
    if lot < 0.05:
        return random_soup(rng)
    lines = random_lines(rng)
    if lot < 0.25:
        lines = edit_fields(rng, lines)
    elif lot < 0.45:
        lines = edit_lines(rng, lines)
    job = as_bytes(text_of(lines))
    if lot >= 0.85:
        return job
    if lot >= 0.80:
        return random_cut(rng, job)
    if lot >= 0.45:
        return edit_bytes(rng, job)
    return job


def random_case(rng):
    """A random job and lists for it."""
    return random_job(rng), random_lists(rng)


# The file


def cases(seed, count):
    """So many cases: those written by hand, and then random ones."""
    rng = Random(seed)
    chosen = written_cases()[:count]
    while len(chosen) < count:
        chosen.append(random_case(rng))
    return chosen


def write_cases(sink, chosen):
    """Write cases in the stored format."""
    sink.write(b"%d\n" % len(chosen))
    for job, lists in chosen:
        sink.write(b"%d %d %d %d %d\n" % (len(job), *lists))
        sink.write(job + b"\n")


def main(arguments):
    """Write the cases of a seed to standard output."""
    if len(arguments) != 2:
        sys.stderr.write(__doc__)
        return 1
    seed, count = map(int, arguments)
    write_cases(sys.stdout.buffer, cases(seed, count))
    return 0


if __name__ == "__main__":
    sys.exit(main(sys.argv[1:]))
