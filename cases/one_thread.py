"""The service of one thread: what a store answers that executes commands one after another."""
import re

import formats

DONE, NO_KEY, OTHER_VALUE, NO_COMMAND, NO_CHANGE = range(5)
READS = re.compile(rb"(get|scan|raw r) .*|count")
MOST_SCANNED = 65_527  # bytes of a scan's value
REPLY = re.compile(rb"reply ([0-9]+) ([0-9]+) (-|(?:[0-9A-F]{2})+)")


def counted(data):
    return len(data).to_bytes(2, "big") + data


def value_of(word):
    return bytes.fromhex(word[2:].decode()) if word.startswith(b"x:") else word


def body_of(line):
    """The body of the request that a client's line makes."""
    name, *words = line.split(b" ")
    if name == b"raw":
        return value_of(words[1])
    if name == b"scan":
        return b"S" + counted(value_of(words[0])) + int(words[1]).to_bytes(2, "big")
    values = [value_of(word) for word in words]
    if name == b"put":
        return b"P" + counted(values[0]) + values[1]
    if name == b"cas":
        return b"C" + counted(values[0]) + counted(values[1]) + values[2]
    return {b"get": b"G", b"del": b"D", b"count": b"N"}[name] + b"".join(counted(value) for value in values)


class Store:
    """Pairs. The limit on their size isn't looked for."""

    def __init__(self):
        self.pairs = {}

    def answer(self, body, is_read):
        """The status and the value of the answer to a command, which is executed."""
        fields = formats.Fields(body)
        try:
            formats.read_command(formats.Fields(body))
            name = fields.take(1)
            key = b"" if name == b"N" else fields.take(fields.number(2))
            old = fields.take(fields.number(2)) if name == b"C" else b""
        except formats.Refused:
            return NO_COMMAND, b""
        rest = fields.rest()
        if is_read and name in b"PDC":
            return NO_CHANGE, b""
        if name == b"N":
            return DONE, len(self.pairs).to_bytes(8, "big")
        if name == b"S":
            return DONE, self.scanned(key, int.from_bytes(rest, "big"))
        return self.answer_at(name, key, old, rest)

    def answer_at(self, name, key, old, rest):
        """The same of a command on one key."""
        present = self.pairs.get(key)
        if name == b"P":
            self.pairs[key] = rest
            return DONE, b""
        if present is None:
            return NO_KEY, b""
        if name == b"G":
            return DONE, present
        if name == b"C" and present != old:
            return OTHER_VALUE, present
        if name == b"C":
            self.pairs[key] = rest
        else:
            del self.pairs[key]
        return DONE, b""

    def scanned(self, key, limit):
        found = b""
        for each in sorted(name for name in self.pairs if name >= key)[:limit]:
            pair = counted(each) + counted(self.pairs[each])
            if len(found) + len(pair) > MOST_SCANNED:
                break
            found += pair
        return found


def problems_of(clients):
    """What is wrong with the replies of clients, given as pairs of what each read and what it printed, in words; nothing where each call
    has the reply of one thread that executes all of the calls in the order of their indexes, those of a client in its order."""
    calls = []
    for name, (given, printed) in clients.items():
        lines, replies, last = given.splitlines(), printed.splitlines(), 0
        if len(lines) != len(replies):
            return [f"of {name}: {len(replies)} lines are printed for {len(lines)} calls"]
        for line, reply in zip(lines, replies):
            found = REPLY.fullmatch(reply)
            if not found:
                return [f"of {name}: no reply to {line.decode()}: {reply.decode(errors='replace')}"]
            if int(found[1]) <= last:
                return [f"of {name}: the reply to {line.decode()} has the index {found[1].decode()}, after {last}"]
            last = int(found[1])
            calls.append((last, name, line, reply))
    calls.sort()
    store, before = Store(), 0
    for index, name, line, reply in calls:
        status, value = store.answer(body_of(line), bool(READS.fullmatch(line)))
        wanted = f"reply {index} {status} {value.hex().upper() or '-'}".encode()
        if index <= before or reply != wanted:
            return [f"of {name}: {line.decode()}: one thread would answer {wanted.decode()}, after index {before}, and not {reply.decode()}"]
        before = index
    return []
