"""Journals: the records that a replica's file has, the term, vote and log to which they lead, and who leads a group."""
import collections

import formats

OPEN_GATE = 0x5A

# An entry of a log: its term, its kind (0 blank, 1 write, 2 read), the client's address in 6 bytes, the number of its request, who
# answers it, and the request's body.
Entry = collections.namedtuple("Entry", "term kind client number replier body")

# What a replica keeps: its term, for whom it voted in it (255: for nobody), and its log.
State = collections.namedtuple("State", "term vote log")


class Damaged(ValueError):
    """A file that is no journal; `at` is the offset of its first wrong place."""

    def __init__(self, at):
        super().__init__(f"damaged at {at}")
        self.at = at


def entry_of(fields):
    term, kind = fields.number(8), fields.number(1)
    client, number, replier = fields.take(6), fields.number(2), fields.number(1)
    return Entry(term, kind, client, number, replier, fields.take(fields.number(2)))


def state_after(state, record):
    """What a record leads to; it may have to be refused."""
    formats.read_record(formats.Fields(record))
    fields = formats.Fields(record)
    fields.take(1)
    term, vote, keep, count = fields.number(8), fields.number(1), fields.number(8), fields.number(1)
    if term < state.term or keep > len(state.log) or term == state.term and state.vote not in (formats.NOBODY, vote):
        raise formats.Refused("no next record")
    return State(term, vote, state.log[:keep] + [entry_of(fields) for _ in range(count)])


def read_journal(data):
    """The records of a journal's file, and what they lead to. A record that doesn't follow is refused as the program does, but that
    neither the limits of a log nor repeated requests are looked for."""
    records, state, at = [], State(0, formats.NOBODY, []), 0
    while len(data) > 1:
        if at < len(data) and data[at] != OPEN_GATE:
            break
        record = data[at + 5 : at + 5 + int.from_bytes(data[at + 1 : at + 5], "big")]
        try:
            state = state_after(state, record)
        except formats.Refused:
            raise Damaged(at) from None
        records.append(record)
        at += 5 + len(record)
    return records, state


def leader_of(states):
    """The member for which a majority voted in the greatest term of a group's states, or nothing."""
    term = max(state.term for state in states)
    votes = [state.vote for state in states if state.term == term and state.vote != formats.NOBODY]
    return next((vote for vote in votes if 2 * votes.count(vote) > len(states)), None)
