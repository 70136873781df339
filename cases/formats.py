"""What datagrams, records and messages say, in words, and where their fields end.

Bytes are read from left to right by a `Fields`, which remembers the sizes of the fields it read. So one reading gives both the words
and the places at which a case puts blanks between hexadecimal digits. A function read_NAME reads what its name says, and answers its
words.
"""
import re

import repetitions

TYPES = ["REQ0", "REPLY", "REQRDY", "REQN", "FEEDBACK", "REJECT", "ORDERING", "RECOVER"]
POLICIES = ["FIXED", "JBSQ", "REPLICATED", "REPLICATED_READ"]
REQ0, REPLY, REQRDY, REQN, FEEDBACK, REJECT, ORDERING, RECOVER = range(8)
FIRST, LAST = 0x80, 0x40

# Of each type: its policies with a header of 8 bytes, those with one of 16, the greatest count of a first part (0: it is never a first
# part) and the greatest number of a later part (0: it is never a later part).
TABLE = [
    ({0, 1, 2, 3}, {1, 2, 3}, 60, 0),
    ({0, 1, 2, 3}, set(), 64, 63),
    ({0, 1}, set(), 1, 0),
    ({0, 1, 2, 3}, {2, 3}, 0, 59),
    (set(), {1, 2, 3}, 1, 0),
    ({1, 2, 3}, set(), 1, 0),
    ({2}, set(), 1, 0),
    (set(), {2}, 64, 63),
]
STATUSES = [
    "done",
    "no such key",
    "it is another value",
    "no command",
    "a read may not change anything",
    "the store would be too large",
]
KINDS = ["blank", "write", "read"]
COMMANDS = {0x47: "GET", 0x50: "PUT", 0x44: "DEL", 0x43: "CAS", 0x53: "SCAN", 0x4E: "COUNT"}
NOBODY = 255  # as a vote or a replier
GREATEST = 2**62  # of terms and indexes
GREATEST_MEMBER = 6
MOST_ENTRIES = 64  # of a record or an Order
MOST_BODY = 61440
SHOWN = 24  # bytes of a value that are shown whole
NOTED = 6  # up to so many parts of a record a note names each


class Refused(ValueError):
    """Bytes that aren't of the form; its text is the name of the fault."""


class Fields:
    """Bytes that are read field by field, with the sizes of the fields read so far."""

    def __init__(self, data):
        self.data = data
        self.at = 0
        self.sizes = []

    def left(self):
        return len(self.data) - self.at

    def take(self, size):
        if self.left() < size:
            raise Refused("Short")
        return self._next(size)

    def rest(self):
        return self._next(self.left())

    def inside(self, size):
        """The next field, which is to be read field by field itself."""
        inner = Fields(self.take(size))
        if size:
            self.sizes[-1] = inner
        return inner

    def number(self, size, least=0, most=None):
        value = int.from_bytes(self.take(size), "big")
        if value < least or most is not None and value > most:
            raise Refused("Range")
        return value

    def ends(self):
        if self.left():
            raise Refused("Extra")

    def all_sizes(self):
        """The sizes of the fields, of one that was read itself those inside it; the last is what wasn't read."""
        found = []
        for each in self.sizes:
            found += each.all_sizes() if isinstance(each, Fields) else [each]
        return found + ([self.left()] if self.left() else [])

    def _next(self, size):
        begin = self.at
        self.at += size
        if size:
            self.sizes.append(size)
        return self.data[begin : self.at]


# Values and addresses


def part_of_value(value):
    is_text = all(0x20 < each < 0x7F and each not in b'"\\' for each in value)
    return '"%s"' % value.decode("ascii") if is_text else value.hex().upper()


def value_words(value):
    """Bytes as text where all are printable, else in hexadecimal digits; long ones by what is repeated in them, or by their beginning
    and their length."""
    if len(value) <= SHOWN:
        return part_of_value(value)
    text = " ".join(repetitions.words(part_of_value(part), count) for part, count in repetitions.pieces(value))
    return text if len(text) <= 2 * SHOWN else f"{part_of_value(value[:SHOWN])}.. ({len(value):,} bytes)"


def address_words(address):
    return ".".join(str(each) for each in address[:4]) + ":" + str(int.from_bytes(address[4:], "big"))


def counted(count, one, many=None):
    return f"{count:,} {one if count == 1 else many or one + 's'}"


def status_words(status):
    return STATUSES[status] if status < len(STATUSES) else f"status {status}"


# The service


def counted_bytes(fields):
    return fields.take(fields.number(2))


def read_command(fields):
    """The words of the command that the fields are; it goes to the end."""
    name = COMMANDS.get(fields.number(1))
    if name is None:
        raise Refused("Tag")
    if name == "COUNT":
        words = name
    elif name in ("GET", "DEL"):
        words = f"{name} {value_words(counted_bytes(fields))}"
    elif name == "PUT":
        words = f"PUT {value_words(counted_bytes(fields))} to {value_words(fields.rest())}"
    elif name == "CAS":
        key, old = counted_bytes(fields), counted_bytes(fields)
        words = f"CAS {value_words(key)} from {value_words(old)} to {value_words(fields.rest())}"
    else:
        key, limit = counted_bytes(fields), fields.number(2)
        words = f"SCAN from {value_words(key)}, {limit} at most"
    fields.ends()
    return words


def read_body(fields):
    """The words of a request's body."""
    try:
        return read_command(fields)
    except Refused:
        fields.rest()
        return "no command"


def read_reply(fields):
    """The words of a reply's payload, or of its first part."""
    if fields.left() < 9:
        return f"a short reply, {counted(len(fields.rest()), 'byte')}"
    index, status = fields.number(8), fields.number(1)
    value = fields.rest()
    return f"index {index}, {status_words(status)}" + (f", value {value_words(value)}" if value else "")


def pairs_of(value):
    """The keys and values of a scan's value; nothing where it isn't one."""
    fields, pairs = Fields(value), []
    try:
        while fields.left():
            pairs.append((counted_bytes(fields), counted_bytes(fields)))
    except Refused:
        return None
    return pairs


# Entries, records and messages


def read_entry(fields, least=1, most=GREATEST):
    """The words of an entry without its body, whose term is in this range; and its term and kind."""
    term = fields.number(8, least, most)
    kind = fields.number(1, 0, 2)
    client = fields.take(4) + fields.take(2)
    number, replier = fields.number(2), fields.number(1)
    is_blank = kind == 0
    if is_blank and (any(client) or number) or (replier != NOBODY if is_blank else replier > GREATEST_MEMBER):
        raise Refused("Range")
    if is_blank:
        return f"blank of term {term}", term, kind
    return f"{KINDS[kind]} {number} of {address_words(client)} in term {term}, replier {replier}", term, kind


def read_record(fields):
    """The words of a record: a line for its own fields, and one for each entry."""
    if fields.left() and fields.number(1) != 1:
        raise Refused("Version")
    term, vote = fields.number(8, 1, GREATEST), fields.number(1)
    if GREATEST_MEMBER < vote < NOBODY:
        raise Refused("Range")
    keep, count = fields.number(8, 0, GREATEST), fields.number(1, 0, MOST_ENTRIES)
    lines = [f"term {term}, " + ("no vote" if vote == NOBODY else f"vote for member {vote}")]
    if count == 0:
        lines.append(f"no new entry after entry {keep}")
    for place in range(count):
        words, _, kind = read_entry(fields)
        body = fields.inside(fields.number(2, 0, MOST_BODY if kind else 0))
        lines.append(f"entry {keep + 1 + place}: {words}" + (f": {read_body(body)}" if kind else ""))
    fields.ends()
    return lines


def read_member(fields):
    return fields.number(1, 0, GREATEST_MEMBER)


def read_index(fields):
    return fields.number(8, 0, GREATEST)


def read_vote_request(fields):
    term, member = fields.number(8, 1, GREATEST), read_member(fields)
    index, last = read_index(fields), fields.number(8, 0, term)
    return f"VoteReq: term {term}, member {member}, last index {index}, last term {last}"


def read_vote(fields):
    term, member = fields.number(8, 1, GREATEST), read_member(fields)
    return f"Vote: term {term}, member {member}, {'granted' if fields.number(1, 0, 1) else 'not granted'}"


def read_order(fields):
    term, leader = fields.number(8, 1, GREATEST), read_member(fields)
    index, previous = read_index(fields), fields.number(8, 0, term)
    start, commit = fields.number(8, 1, GREATEST), read_index(fields)
    via = "by the aggregator" if fields.number(1, 0, 1) else "directly"
    count = fields.number(1, 0, min(MOST_ENTRIES, GREATEST - index))
    lines = [
        f"Order: term {term}, leader {leader}, after index {index} of term {previous}, start of the term {start}, "
        f"commit {commit}, {via}, {counted(count, 'entry', 'entries')}"
    ]
    least = max(1, previous)
    for place in range(count):
        words, least, _ = read_entry(fields, least, term)
        lines.append(f"entry {index + 1 + place}: {words}")
    return "; ".join(lines)


def read_acknowledgement(fields):
    term, member = fields.number(8, 1, GREATEST), read_member(fields)
    index, applied = read_index(fields), read_index(fields)
    return f"Ack: term {term}, member {member}, index {index}, applied {applied}"


def read_refusal(fields):
    term, member = fields.number(8, 1, GREATEST), read_member(fields)
    return f"Nack: term {term}, member {member}, hint {read_index(fields)}"


def read_aggregate(fields):
    return f"AggCommit: term {fields.number(8, 1, GREATEST)}, index {read_index(fields)}"


def read_question(fields):
    return f"RecoverAsk: member {read_member(fields)}"


def read_recovered(fields):
    kind = fields.number(1, 1, 2)
    return f"RecoverBody: {KINDS[kind]}: {read_body(fields)}"


MESSAGES = [
    read_vote_request,
    read_vote,
    read_order,
    read_acknowledgement,
    read_refusal,
    read_aggregate,
    read_question,
    read_recovered,
]


def read_message(fields):
    """The words of a message between replicas."""
    tag = fields.number(1)
    if not 1 <= tag <= len(MESSAGES):
        raise Refused("Tag")
    words = MESSAGES[tag - 1](fields)
    fields.ends()
    return words


# Datagrams


class Header:
    """The header of a datagram; a header that isn't one is refused, by the first check that it fails."""

    def __init__(self, fields):
        data = fields.data
        if len(data) < 8:
            raise Refused("Short")
        if data[0] != 0x52:
            raise Refused("Magic")
        if data[1] not in (8, 16):
            raise Refused("Size")
        if len(data) < data[1]:
            raise Refused("Short")
        fields.take(4)
        self.id, self.number = fields.number(2), fields.number(2)
        self.client = fields.take(4) + fields.take(2) if data[1] == 16 else None
        self.type, self.policy = data[2] >> 4, data[2] & 15
        self.is_first, self.is_last = bool(data[3] & FIRST), bool(data[3] & LAST)
        self._check(data[3])
        if self.client and any(fields.take(2)):
            raise Refused("Extension")

    def _check(self, flags):
        if self.type >= len(TABLE):
            raise Refused("TypeOrPolicy")
        short, long, most_count, most_number = TABLE[self.type]
        if self.policy not in (long if self.client else short) or self.type == ORDERING and self.id:
            raise Refused("TypeOrPolicy")
        if flags & ~(FIRST | LAST) or not (most_count if self.is_first else most_number):
            raise Refused("Flags")
        if most_count == 1 and not self.is_last:
            raise Refused("Flags")
        if not 1 <= self.number <= (most_count if self.is_first else most_number):
            raise Refused("Count")
        if self.is_first and self.is_last != (self.number == 1):
            raise Refused("Count")

    def words(self):
        words = [TYPES[self.type], POLICIES[self.policy], f"id {self.id}"]
        if self.client:
            words.append(f"client {address_words(self.client)}")
        if not self.is_first:
            words.append(f"part number {self.number}" + (", the last" if self.is_last else ""))
        elif self.number > 1:
            words.append(f"the first of {self.number} parts")
        return ", ".join(words)


def read_part(fields):
    return counted(len(fields.rest()), "byte")


def read_first_part(fields, header):
    """The words of the first part of a request, of what the body begins with where it isn't whole."""
    if header.number == 1:
        return read_body(fields)
    inner = fields.inside(fields.left())
    try:
        return f"it begins as {read_command(inner)}"
    except Refused:
        return counted(len(inner.data), "byte")


def read_payload(fields, header):
    """The words of what comes after a header; nothing where there is nothing to say."""
    if header.type == REQ0:
        return read_first_part(fields, header)
    if header.type == REPLY and header.is_first:
        return read_reply(fields)
    if header.type == ORDERING or header.type == RECOVER and header.is_first and header.number == 1:
        try:
            return read_message(fields)
        except Refused as fault:
            return f"no message ({fault})"
    return read_part(fields) if fields.left() or not header.is_first else None


def read_datagram(fields):
    """The words of a datagram."""
    try:
        header = Header(fields)
    except Refused as fault:
        return [f"no header ({fault})"]
    words = read_payload(fields, header)
    return [header.words() + (f": {words}" if words else "")]


# Lines

LINE = re.compile(r"(rec|(?:in|out) \S+) (.*)")
HEAD = re.compile(r"rec|in [0-9.]+:[1-9][0-9]*|out [0-9.]+:[0-9]+")
GROUP = re.compile(r"([0-9A-Fa-f]+)(?:\*([0-9]+))?")


def digits_of(text):
    """The hexadecimal digits of groups, of which GROUP*N means N times the group; nothing where the text isn't of this form."""
    groups = [GROUP.fullmatch(each) for each in text.split()]
    return "".join(each[1] * int(each[2] or 1) for each in groups) if all(groups) else None


def parted(line):
    """The head of a line that ends in hexadecimal digits, and these digits; nothing where it is another line."""
    found = LINE.fullmatch(line)
    digits = digits_of(found[2]) if found else None
    return None if digits is None else (found[1], digits)


def read_line(line):
    """The words of a record or a datagram, and the sizes of its fields; nothing where the line has none."""
    head, digits = parted(line) or ("", "")
    if not HEAD.fullmatch(head) or len(digits) % 2:
        return [], []
    fields = Fields(bytes.fromhex(digits))
    try:
        words = read_record(fields) if head == "rec" else read_datagram(fields)
    except Refused as fault:
        words = [f"no record ({fault})"]
    return words, fields.all_sizes()


def line_words(line):
    """What a line says, in words: a list of lines, empty where it is no record and no datagram."""
    return read_line(line)[0]


def line_note(line):
    """The same on one line, without what lines of a short script have in common; empty where there is nothing to say."""
    words = line_words(line)
    if len(words) > 1 and re.match("entry ([2-9]|[0-9]{2})", words[1]):
        del words[0]
    if len(words) > NOTED:
        words[2:-1] = [".."]
    return re.sub(r" of [0-9.]+:\d+ in term \d+(, replier 0)?", "", "; ".join(words))
