#!/usr/bin/env python3
"""A second reader of flow texts, rulebook texts and jobs.

It is written from docs/FORMATS.md and docs/REFUSALS.md alone, to test another
reader against. It is meant to be plain, not fast.

    reference.py job < JOB          what flowcheck prints for the job
    reference.py vectors < CASES    the answer to each case of a stored file
"""

import sys
from dataclasses import dataclass, field
from typing import Callable, NamedTuple, Optional

LONGEST_TEXT = 32768
FLOW_LIMITS = (2048, 1024, 2048)
EQUATION_LIMIT = 1024

# The numbers of the refusals.
SIZE, FORM, MALFORMED, RANGE, REPEATED, FULL, TURN = range(1, 8)

# How many fields a line has, its letter included.
FIELD_COUNTS = {b"F": 4, b"T": 4, b"U": 3, b"P": 3, b"R": 3, b"Q": 5}

# Which fields of a line are number fields; the letter is field 1.
NUMBER_FIELDS = {
    b"F": (2, 3, 4),
    b"T": (2, 3, 4),
    b"U": (2, 3),
    b"P": (2, 3),
    b"R": (3,),
    b"Q": (2, 4, 5),
}

SIDES = (b"G", b"L")

# How many of its two places a form uses, from the left.
USED_PLACES = {b"t": 0, b"f": 0, b"A": 1, b"|": 2, b"&": 2, b"<": 2, b"[": 2}

COUNT_RANGES = ((1, 1024), (1, 64), (0, 64))
LENGTH_RANGES = ((1, 1024),)
ANY_NUMBER = (0, 65535)
ONLY_ZERO = (0, 0)

RECORD_LETTERS = (b"T", b"U", b"P")


class Refusal(NamedTuple):
    """Why and where a text is refused."""

    number: int
    line: int
    field: int


class Fault(Exception):
    """A fault within one line; field 0 is the whole line."""

    def __init__(self, number: int, field: int = 0):
        super().__init__(number, field)
        self.number = number
        self.field = field


class Equation(NamedTuple):
    """The right side of an equation: its form and its two places."""

    form: bytes
    first: int
    second: int


def no_records() -> dict:
    """An empty list for each letter of a flow's records."""
    return {letter: [] for letter in RECORD_LETTERS}


@dataclass
class Flow:
    """What was read of a flow text: its counts, and the records of each list."""

    counts: tuple = ()
    records: dict = field(default_factory=no_records)
    refusal: Optional[Refusal] = None


@dataclass
class Rulebook:
    """What was read of a rulebook text: side and length, and the equations."""

    side: bytes = b""
    length: int = 0
    equations: list = field(default_factory=list)
    refusal: Optional[Refusal] = None


@dataclass
class Job:
    """What was read of a job. Of a refused one, `part` says which part is at fault."""

    part: int = 0
    refusal: Optional[Refusal] = None
    flow: Flow = field(default_factory=Flow)
    rulebook: Rulebook = field(default_factory=Rulebook)


# Lines


def read_lines(text: bytes, take: Callable[[int, list], None]) -> Optional[Refusal]:
    """Hand the lines of a text to `take`, as a line number and a list of fields.

    Stop at the first fault and answer its refusal; answer None without one.
    """
    if not 1 <= len(text) <= LONGEST_TEXT:
        return Refusal(SIZE, 0, 0)
    *lines, unended = text.split(b"\n")
    for number, line in enumerate(lines, start=1):
        try:
            take(number, line.split(b","))
        except Fault as fault:
            return Refusal(fault.number, number, fault.field)
    if unended:
        return Refusal(FORM, len(lines) + 1, 0)
    return None


def check_form(fields: list, allowed: tuple) -> None:
    """Refuse a line of no known form, and one whose letter is not allowed here."""
    letter = fields[0]
    if letter not in allowed or len(fields) != FIELD_COUNTS[letter]:
        raise Fault(FORM)
    if letter == b"R" and fields[1] not in SIDES:
        raise Fault(FORM)
    if letter == b"Q" and fields[2] not in USED_PLACES:
        raise Fault(FORM)


def is_number(spelling: bytes) -> bool:
    """Whether a field is one to five digits."""
    return 1 <= len(spelling) <= 5 and all(byte in b"0123456789" for byte in spelling)


def read_numbers(fields: list) -> tuple:
    """The numbers of a line of known form; refuse the leftmost that is none."""
    places = NUMBER_FIELDS[fields[0]]
    for place in places:
        if not is_number(fields[place - 1]):
            raise Fault(MALFORMED, place)
    return tuple(int(fields[place - 1]) for place in places)


def check_ranges(letter: bytes, numbers: tuple, ranges: tuple) -> None:
    """Refuse the leftmost number that is outside its range."""
    for place, number, (low, high) in zip(NUMBER_FIELDS[letter], numbers, ranges):
        if not low <= number <= high:
            raise Fault(RANGE, place)


# Flow texts


def record_ranges(letter: bytes, counts: tuple) -> tuple:
    """The ranges of a record's numbers in a flow of these counts."""
    states, actions, atoms = ((0, count - 1) for count in counts)
    return {
        b"T": (states, actions, states),
        b"U": (states, actions),
        b"P": (atoms, states),
    }[letter]


def read_counts(fields: list) -> tuple:
    """Read line 1 of a flow text: the numbers of states, actions and atoms."""
    check_form(fields, (b"F",))
    counts = read_numbers(fields)
    check_ranges(b"F", counts, COUNT_RANGES)
    return counts


def add_record(fields: list, counts: tuple, records: dict, places: dict) -> None:
    """Read a later line of a flow text and put its record into its list."""
    check_form(fields, RECORD_LETTERS)
    letter = fields[0]
    record = read_numbers(fields)
    check_ranges(letter, record, record_ranges(letter, counts))
    if record in records[letter]:
        raise Fault(REPEATED)
    if len(records[letter]) >= places[letter]:
        raise Fault(FULL)
    records[letter].append(record)


def read_flow(text: bytes, rooms: tuple[int, int, int]) -> Flow:
    """Read a flow text into lists of these lengths (transitions, divergences, labels)."""
    flow = Flow()
    places = dict(zip(RECORD_LETTERS, map(min, rooms, FLOW_LIMITS)))

    def take(number: int, fields: list) -> None:
        if number == 1:
            flow.counts = read_counts(fields)
        else:
            add_record(fields, flow.counts, flow.records, places)

    flow.refusal = read_lines(text, take)
    return flow


# Rulebook texts


def equation_ranges(form: bytes) -> tuple:
    """The ranges of an equation's numbers: its own number and its two places."""
    used = USED_PLACES[form]
    return (ANY_NUMBER,) * (1 + used) + (ONLY_ZERO,) * (2 - used)


def read_heading(fields: list) -> tuple:
    """Read line 1 of a rulebook text: the side and the number of equations."""
    check_form(fields, (b"R",))
    numbers = read_numbers(fields)
    check_ranges(b"R", numbers, LENGTH_RANGES)
    return fields[1], numbers[0]


def add_equation(fields: list, length: int, equations: list, places: int) -> None:
    """Read a later line of a rulebook text and put its equation into the list."""
    check_form(fields, (b"Q",))
    form = fields[2]
    index, first, second = numbers = read_numbers(fields)
    check_ranges(b"Q", numbers, equation_ranges(form))
    if len(equations) == length:
        raise Fault(TURN)
    if index != len(equations):
        raise Fault(TURN, 2)
    if len(equations) >= places:
        raise Fault(FULL)
    equations.append(Equation(form, first, second))


def read_rulebook(text: bytes, room: int) -> Rulebook:
    """Read a rulebook text into a list of this length."""
    book = Rulebook()
    places = min(room, EQUATION_LIMIT)

    def take(number: int, fields: list) -> None:
        if number == 1:
            book.side, book.length = read_heading(fields)
        else:
            add_equation(fields, book.length, book.equations, places)

    book.refusal = read_lines(text, take)
    if book.refusal is None and len(book.equations) < book.length:
        line_after_last = text.count(b"\n") + 1
        book.refusal = Refusal(TURN, line_after_last, 0)
    return book


# Jobs


def split_job(job: bytes) -> tuple:
    """Part a job into flow text and rulebook text, before its first line in `R`."""
    start = 0
    while start < len(job):
        if job[start : start + 1] == b"R":
            return job[:start], job[start:]
        line_end = job.find(b"\n", start)
        if line_end < 0:
            break
        start = line_end + 1
    return job, b""


def read_job(
    job: bytes,
    rooms: tuple[int, int, int] = FLOW_LIMITS,
    room: int = EQUATION_LIMIT,
) -> Job:
    """Read a job into lists of these lengths; without them the lists are full."""
    if not 1 <= len(job) <= LONGEST_TEXT:
        return Job(0, Refusal(SIZE, 0, 0))
    flow_text, rulebook_text = split_job(job)
    flow = read_flow(flow_text, rooms)
    if flow.refusal:
        return Job(1, flow.refusal, flow)
    book = read_rulebook(rulebook_text, room)
    return Job(2, book.refusal, flow, book)


# Printing


def spell(letter: bytes, *fields) -> bytes:
    """A line of a letter and fields; numbers are spelt without leading zeros."""
    spelt = [item if isinstance(item, bytes) else b"%d" % item for item in fields]
    return b",".join([letter, *spelt]) + b"\n"


def spell_records(flow: Flow) -> bytes:
    """The records of a flow: transitions, divergences, labels."""
    return b"".join(
        spell(letter, *record)
        for letter in RECORD_LETTERS
        for record in flow.records[letter]
    )


def spell_equations(book: Rulebook) -> bytes:
    """The equations of a rulebook, numbered from 0."""
    return b"".join(
        spell(b"Q", index, *equation) for index, equation in enumerate(book.equations)
    )


def spell_answer(job: Job) -> bytes:
    """What flowcheck prints: the refusal, or an account of what was read."""
    if job.refusal:
        return spell(b"E", job.part, *job.refusal)
    return (
        spell(b"F", *job.flow.counts)
        + spell_records(job.flow)
        + spell(b"R", job.rulebook.side, job.rulebook.length)
        + spell_equations(job.rulebook)
    )


def spell_case(job: Job) -> bytes:
    """The answer to a stored case: a refusal also shows what the lists hold."""
    answer = spell_answer(job)
    if job.refusal:
        answer += spell_records(job.flow) + spell_equations(job.rulebook)
    return answer + b".\n"


# Stored cases


def stored_cases(file) -> list:
    """The cases of a stored file, as pairs of a job and its four list lengths."""
    return [stored_case(file) for _ in range(int(file.readline()))]


def stored_case(file) -> tuple:
    """Read one case: a line `LEN A B C D`, the job's bytes, and a newline."""
    size, *lengths = map(int, file.readline().split(b" "))
    job = file.read(size)
    if len(lengths) != 4 or len(job) != size or file.read(1) != b"\n":
        raise ValueError("the file of cases is damaged")
    return job, tuple(lengths)


# Command line


def main(arguments: list) -> int:
    """Answer one job, or a stored file of cases, from standard input."""
    source, sink = sys.stdin.buffer, sys.stdout.buffer
    if arguments == ["job"]:
        sink.write(spell_answer(read_job(source.read())))
    elif arguments == ["vectors"]:
        for job, lengths in stored_cases(source):
            sink.write(spell_case(read_job(job, lengths[:3], lengths[3])))
    else:
        sys.stderr.write(__doc__)
        return 1
    return 0


if __name__ == "__main__":
    sys.exit(main(sys.argv[1:]))
