"""Parts of a text that are repeated, and texts of which the next ones count on."""

PERIODS = 64  # units that a repeated part may have
WORTH = 24  # characters that a repetition must save at least


def pieces(text, unit=1):
    """A text in pieces: parts of it and how often each stands. A part has a multiple of `unit` characters."""
    found, begin, at = [], 0, 0
    while at < len(text):
        period, count = best(text, at, unit)
        if period * (count - 1) < WORTH:
            at += unit
            continue
        found += [(text[begin:at], 1)] if begin < at else []
        found.append((text[at : at + period], count))
        begin = at = at + period * count
    return found + ([(text[begin:], 1)] if begin < len(text) else [])


def best(text, at, unit):
    """The length of the part that is repeated at a place, and how often: where the most is saved, and the shortest of these."""
    found = (unit, 1)
    for period in range(unit, PERIODS * unit + 1, unit):
        part, count = text[at : at + period], 1
        while len(part) == period and text.startswith(part, at + period * count):
            count += 1
        if period * (count - 1) > found[0] * (found[1] - 1):
            found = (period, count)
    return found


def words(part, count):
    return part if count == 1 else f"{part}*{count}"


def is_next(one, other):
    """Whether a hexadecimal number, with its leading zeros, is the one after another."""
    try:
        return other == f"{int(one, 16) + 1:0{len(one)}X}"
    except ValueError:
        return False


def steps(one, other):
    """Of two rows of texts, whether each text of the second is that of the first (0) or counts on from it (1); nothing where one is
    neither, or the rows haven't equally many."""
    found = [0 if a == b else 1 if is_next(a, b) else None for a, b in zip(one, other)]
    return found if len(one) == len(other) and None not in found else None


def going_together(rows):
    """The first of some rows that go together: each text is that of the row before it, or always counts on from it."""
    found, wanted = [], None
    for row in rows:
        step = steps(found[-1], row) if found else None
        if found and (step is None or wanted not in (None, step)):
            break
        wanted = step
        found.append(row)
    return found


def together(rows):
    """The texts of rows that go together: one that counts on as {FIRST..LAST}."""
    return [first if first == last else "{%s..%s}" % (first, last) for first, last in zip(rows[0], rows[-1])]
