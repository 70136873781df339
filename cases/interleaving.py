"""Which line of the input makes the program print which lines of the output, for a reader of the case."""
import itertools

import cases
import formats
import repetitions
import running
import writing

NO_LINE = b"no line of a script\n"
NOTED = 60  # records and datagrams of a case up to which each has a note
NOTE = 160  # characters that a note may have
MERGED = 6  # so many lines that are the same or count on, or more, are written as one


def lines_in(text):
    """The lines of a text, each with its LF; the last may lack it."""
    pieces = text.split(b"\n")
    return [piece + b"\n" for piece in pieces[:-1]] + ([pieces[-1]] if pieces[-1] else [])


def printed_by_replay(run, lines):
    """How many bytes are printed by the first lines of a replay's script, for each number of lines but the last: those that come before
    a line that is none of a script's, which ends the run."""

    def printed(count):
        outcome = running.run_case(cases.case_of(run._replace(input=b"".join(lines[:count]) + NO_LINE)))
        return len(outcome.ended[0].output)

    found = [0] * len(lines)

    def fill(first, last):
        if found[first] == found[last]:
            found[first:last] = [found[first]] * (last - first)
        elif last - first > 1:
            middle = (first + last) // 2
            found[middle] = printed(middle)
            fill(first, middle)
            fill(middle, last)

    if lines:
        found[-1] = printed(len(lines) - 1)
        fill(0, len(lines) - 1)
    return found


def printed_by_client(lines, output):
    """The same for a client, which prints a line for each line of its script that isn't empty."""
    found, replies = [0], lines_in(output)
    for line in lines[:-1]:
        found.append(found[-1] + (len(replies.pop(0)) if line.strip() and replies else 0))
    return found


def text_of(line):
    return line.decode(errors="replace").rstrip("\n")


def order_of(run, printed):
    """Marks and lines of a run, in the order in which they come; `printed` says how many bytes are printed by the first lines."""
    lines = lines_in(run.input)
    ends = printed[1:] + [len(run.output)]
    order, begin = [], 0
    for line, end in zip(lines, ends):
        order.append((cases.INPUT, line))
        order += [(cases.OUTPUT, each) for each in lines_in(run.output[begin:end])]
        begin = end
    if not lines:
        order += [(cases.OUTPUT, each) for each in lines_in(run.output)]
    return merged(order) + [(cases.ERRORS, each) for each in lines_in(run.errors)]


def merged(order):
    """Lines in a row of which many are the same or count on, as one."""
    found = []
    for mark, row in itertools.groupby(order, lambda each: each[0]):
        lines = [line for _, line in row]
        fields = [writing.fields_of(text_of(line)) for line in lines]
        at = 0
        while at < len(lines):
            count = len(repetitions.going_together(itertools.islice(fields, at, None)))
            count = count if count >= MERGED else 1
            found.append((mark, b"".join(lines[at : at + count])))
            at += count
    return found


def note_of(data):
    """A note on a record or a datagram, or on the first of several lines; empty where there is nothing to say."""
    lines = lines_in(data)
    note = formats.line_note(text_of(lines[0]))
    return f"{len(lines):,} lines, the first: {note}" if note and len(lines) > 1 else note


def noted(order):
    """The same with a note for each record and datagram, where they are few."""
    notes = [note_of(data) for _, data in order]
    are_few = sum(map(bool, notes)) <= NOTED
    return [(mark, data, note if are_few and len(note) <= NOTE else "") for (mark, data), note in zip(order, notes)]


def told(run):
    """Marks, lines and notes of a run, in order."""
    lines = lines_in(run.input)
    if run.words[:1] == [b"replay"]:
        printed = printed_by_replay(run, lines)
    elif run.words[:1] == [b"client"]:
        printed = printed_by_client(lines, run.output)
    else:
        printed = [0] * len(lines)
    return noted(order_of(run, printed))
