"""A search for the shortest 7-bit text of a sequence that knows nothing of writers, units or costs.

It tries texts byte by byte, all 128 bytes, in order of length and then of bytes, and keeps those whose sequence so far
begins the wanted one, until one reads as all of it and ends whole. Of the texts that lead to the same state of the
reader at the same place in the sequence only the first is kept: whatever comes after it comes after the others too.

    import shortest_search
    shortest_search.found(items)                         # the first text in that order; items as in writer_model.py

It is for sequences of a few items, as ALPHABET and text_of make them; tests/search-of-three compares on all of up to
three.
"""

from collections import namedtuple
from functools import cached_property, lru_cache

import reader_model
from reader_model import BOTH_BEGIN, ESC, OPENING, SI, SO, SS2, SS3, at
from writer_model import MARK

# --- The search

# Where a reader in step stands between two bytes of a 7-bit text: gone is how many bytes of an opening have just gone
# by, which decides on marks. The sets are a tuple of pairs, so that two states can be told to be the same.
State = namedtuple('State', 'sets gl gr place gone')
# A byte, what it gives to the sequence, which is one item or nothing, and the node after it.
Step = namedtuple('Step', 'byte items after')


@lru_cache(maxsize=None)
def gone_by(gone, byte):
    """How much of an opening has gone by with a byte more: the longest beginning of one that the bytes end with."""
    bytes_seen = OPENING[7][:gone] + bytes([byte])
    return next(length for length in range(len(OPENING[7]), -1, -1) if bytes_seen.endswith(OPENING[7][:length]))


class Node:
    """A state, with what each byte does there. There is one node for each state: node_of gives it."""

    def __init__(self, state):
        self.reader = reader_model.State(7, dict(state.sets), state.gl, state.gr, state.place)
        self.gone = state.gone
        self.whole = isinstance(state.place, reader_model.Ground)
        self.steps_by_wanted = {}

    @cached_property
    def bytes_by_items(self):
        """The bytes that are not refused, by what they give."""
        found = {}
        for byte in range(128):
            answer, _ = reader_model.feed(self.reader, byte)
            if answer.word != 'refused':
                found.setdefault(items_given(answer, gone_by(self.gone, byte)), []).append(byte)
        return found

    def steps_to(self, wanted):
        """What the bytes do that give nothing, or the wanted item and nothing else, in byte order."""
        if wanted not in self.steps_by_wanted:
            steps = [Step(byte, items, self.after(byte)) for items in ((), (wanted,))
                     for byte in self.bytes_by_items.get(items, ())]
            self.steps_by_wanted[wanted] = sorted(steps, key=lambda step: step.byte)
        return self.steps_by_wanted[wanted]

    def after(self, byte):
        return node_after(reader_model.feed(self.reader, byte)[1], gone_by(self.gone, byte))


@lru_cache(maxsize=None)
def items_given(answer, gone):
    """What a byte gives to the sequence: its answer, or nothing; by request #104 the last byte of an opening, which is
    a shift, gives a mark."""
    if gone == len(OPENING[7]):
        return (MARK,)
    return () if answer.word in ('nothing yet', 'shift') else (answer,)


node_of = lru_cache(maxsize=None)(Node)


def node_after(reader, gone):
    return node_of(State(tuple(sorted(reader.sets.items())), reader.gl, reader.gr, reader.place, gone))


def found(items):
    """The first text, in order of length and then of bytes, that reads as the sequence and ends whole."""
    start = node_after(reader_model.start(7), 0)
    kept, met = [(b'', start, 0)], {(start, 0)}
    while kept:
        # The kept texts are of one length and in byte order, so the longer ones are made in byte order too.
        longer = []
        for text, node, place in kept:
            if place == len(items) and node.whole:
                return text
            for byte, given, after in node.steps_to(items[place] if place < len(items) else None):
                reached = after, place + len(given)
                if reached not in met:
                    met.add(reached)
                    longer.append((text + bytes([byte]), *reached))
        kept = longer
    raise ValueError('no text reads as the sequence')


# --- Sequences of a few items, as texts

# What a text in each form has before a character of an element.
BEFORE_CHARACTER = {
    7: {'G0': bytes([SI]), 'G1': bytes([SO]), 'G2': bytes([ESC, at(4, 14)]), 'G3': bytes([ESC, at(4, 15)])},
    8: {'G0': b'', 'G1': b'', 'G2': bytes([SS2]), 'G3': bytes([SS3])},
}


def character(element, position):
    """The bytes of a character in a form: as many as its set has, with this position first."""
    def piece(form, sets):
        positions = bytes([position, position + 1, position + 2])[:sets[element].bytes_each]
        if (form, element) == (8, 'G1'):
            positions = bytes(at(8, 0) + each for each in positions)
        return BEFORE_CHARACTER[form][element] + positions
    return piece


def byte_of_94(byte):
    """SPACE or DELETE; in 7-bit form GL may show another set than that of G0."""
    return lambda form, sets: BEFORE_CHARACTER[form]['G0'] + bytes([byte])


def same(text):
    """What is the same in both forms."""
    return lambda form, sets: bytes.fromhex(text)


# A name and how the item's bytes are made, from the form and the sets before it. Characters with the positions of
# SPACE and DELETE are refused under 94 type; a text with such is passed over.
ALPHABET = {
    'G0 4/1': character('G0', 0x41), 'G1 4/1': character('G1', 0x41), 'G2 4/1': character('G2', 0x41),
    'G3 4/1': character('G3', 0x41), 'G1 2/0': character('G1', 0x20), 'G2 2/0': character('G2', 0x20),
    'SPACE': byte_of_94(0x20), 'DELETE': byte_of_94(0x7F), 'control 0/10': same('0A'), 'control 1/0': same('10'),
    'C1 function 5': same('1B 45'), 'other': same('1B 30'),
    'G1 94': same('1B 29 42'), 'G2 94': same('1B 2A 42'), 'G0 94x2': same('1B 24 42'), 'G2 94x2': same('1B 24 2A 41'),
    'G3 96x2': same('1B 24 2F 41'),
    'opening': lambda form, sets: OPENING[form], 'opening without its mark': lambda form, sets: BOTH_BEGIN,
}


def text_of(form, names):
    """The text in a form that these items of the alphabet make."""
    state, text = reader_model.start(form), b''
    for name in names:
        piece = ALPHABET[name](form, state.sets)
        for byte in piece:
            state = reader_model.feed(state, byte)[1]
        text += piece
    return text
