"""Lines of a case's file, made of bytes."""
import re

import formats
import repetitions
import texts

LONG = 120  # characters from which on a line is long
ENTRY_FIELDS = range(7, 13)  # that an entry of a record may have, from one without a body on
TOGETHER = 4  # so many entries that count on, or more, are written as one


def fields_of(line):
    """The head of a line that ends in hexadecimal digits, and its fields; the line alone where it is another."""
    head, digits = formats.parted(line) or (None, "")
    if not digits:
        return [line]
    fields, at = [head], 0
    for size in formats.read_line(line)[1] or [len(digits)]:
        fields.append(digits[at : at + 2 * size])
        at += 2 * size
    return fields


def is_plain(line):
    return re.fullmatch(rb"[ -~]*\n", line) is not None


def rows_of(data):
    """The fields of lines, or nothing where one can't be written without quotes."""
    lines = data.split(b"\n")
    if lines.pop() or not all(is_plain(line + b"\n") for line in lines):
        return None
    return [fields_of(line.decode()) for line in lines]


def entries_together(fields):
    """The fields of a record, with entries that count on as one in parentheses."""
    found, at = [], 0
    while at < len(fields):
        for width in ENTRY_FIELDS:
            rows = repetitions.going_together(fields[begin : begin + width] for begin in range(at, len(fields), width))
            if len(rows) >= TOGETHER and begins_entry(rows[0]):
                found.append("(" + " ".join(repetitions.together(rows)) + ")")
                at += width * len(rows)
                break
        else:
            found.append(fields[at])
            at += 1
    return found


def begins_entry(fields):
    """Whether fields begin as an entry does: a term in 8 bytes, and a kind in one."""
    return [len(each) for each in fields[:2]] == [16, 2]


def field_text(field):
    return field if field[:1] in "({" else " ".join(repetitions.words(*each) for each in repetitions.pieces(field, 2))


def exact_text(data):
    pieces = repetitions.pieces(data) or [(b"", 1)]
    return " ".join(repetitions.words(texts.escaped(part), count) for part, count in pieces)


def plain_text(data):
    """The text of a line, or of lines that count on, without quotes; nothing where it can't be written so."""
    rows = rows_of(data)
    if not rows or len(repetitions.going_together(rows)) < len(rows):
        return None
    head, *fields = repetitions.together(rows)
    fields = entries_together(fields) if head == "rec" else fields
    text = " ".join([head] + [field_text(each) for each in fields])
    try:
        return text if texts.plain_bytes(text) == data else None
    except texts.BadCase:
        return None


def text_line(mark, data, comment=""):
    """The line of a case's file for bytes that are read or written: in quotes where it can't be written without, or would be long."""
    plain, line = plain_text(data), f"{mark}= {exact_text(data)}"
    if plain is not None and (len(plain) <= LONG or texts.HEXADECIMAL.fullmatch(plain)):
        line = f"{mark} {plain}".rstrip()
    return line + (f"  # {comment}" if comment else "")


def section_lines(run, order):
    """The lines of a run in a case's file; `order` has the marks, bytes and comments of what it reads and writes, line by line."""
    lines = [" ".join(["$"] + [texts.word_text(word) for word in run.words])]
    lines += [text_line(*each) for each in order]
    return lines + [f"= {run.status}"]


def file_lines(files):
    """The lines of a case's file for the files that a run left, given by name."""
    return [line for name in sorted(files) for line in ["", f"[file {name}]", f"> {field_text(files[name].hex().upper())}".rstrip()]]
