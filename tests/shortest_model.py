"""A model of the shortest 7-bit text, written from the customers' request #108, 'Shortest 7-bit text'.

It is plain: a sequence is taken apart into units, each of which is written at once, and the best text is made from the
last unit to the first, for each element that GL may show. Reading is reader_model.py's and the sequence of a text
writer_model.py's.

    import shortest_model
    shortest_model.shortest_of(items)                       # the shortest 7-bit text of a sequence
    shortest_model.shortened(8, text)                       # the output and the first of 1 to 7; the form is the text's
    shortest_model.shorten_into(8, text, buffer, work)      # the result, and what the two lent buffers hold then

tests/model-shortenings prints what it says of given cases; tests/texts-for-shortenings makes such cases. The search
in shortest_search.py knows nothing of what is here, and finds the same texts.
"""

from collections import namedtuple

import reader_model
import writer_model
from reader_model import BOTH_BEGIN, ESC, OPENING, SI, SO, at
from writer_model import MARK, SPACE_OR_DELETE, Refusal

LONGEST_INPUT = 4096
SHORTEST_WORK = 65536

LOCKING_SHIFT = {
    'G0': bytes([SI]), 'G1': bytes([SO]), 'G2': bytes([ESC, at(6, 14)]), 'G3': bytes([ESC, at(6, 15)]),
}
SINGLE_SHIFT = {'G2': bytes([ESC, at(4, 14)]), 'G3': bytes([ESC, at(4, 15)])}
ELEMENTS = tuple(LOCKING_SHIFT)
# The designations of an opening, as a sequence has them.
DESIGNATIONS_OF_OPENING = writer_model.sequence(7, BOTH_BEGIN)[0]

# What is written at once, with no shift inside. ways: for each element that GL may show, the ways to write the unit
# there, none where it cannot be. shown_after: the element that GL shows after it, None for the one before.
Unit = namedtuple('Unit', 'ways shown_after')


# --- Units

def everywhere(way):
    """A unit that is the same whatever GL shows."""
    return Unit({element: [way] for element in ELEMENTS}, None)


def character_unit(element, positions):
    """As it is where GL shows its element; after its single shift, if there is one, anywhere."""
    ways = {shown: [] for shown in ELEMENTS}
    ways[element].append(positions)
    if element in SINGLE_SHIFT:
        for shown in ELEMENTS:
            ways[shown].append(SINGLE_SHIFT[element] + positions)
    return Unit(ways, None)


def space_or_delete_unit(byte, sets):
    """'Characters and shifts': SPACE and DELETE stand wherever GL shows a set of 94 type."""
    return Unit({shown: [bytes([byte])] if sets[shown].type == 94 else [] for shown in ELEMENTS}, None)


def unit_of(item, sets):
    """The unit of one item that is neither a mark nor of its opening; sets are those before it."""
    word, fields = item
    if word == 'char':
        element, _, positions = fields
        return character_unit(element, positions)
    if word in SPACE_OR_DELETE:
        return space_or_delete_unit(SPACE_OR_DELETE[word], sets)
    if word == 'control':
        element, _, number = fields
        return everywhere(bytes([number]) if element == 'C0' else bytes([ESC, at(4, 0) + number]))
    if word == 'designate':
        return everywhere(writer_model.designation(*fields))
    if word == 'other':
        return everywhere(bytes([ESC]) + fields[0])
    raise ValueError('not written: %s' % word)


# Request #104: no shift stands inside an opening that is a mark, and its own shifts leave G0 in GL.
OPENING_UNIT = everywhere(OPENING[7])._replace(shown_after='G0')


def units_of(items):
    """A sequence as units. Before a mark there always are the designations of its opening: the unit is all of them."""
    units, sets = [], reader_model.start(7).sets
    for place, item in enumerate(items):
        if item == MARK:
            first = place - len(DESIGNATIONS_OF_OPENING)
            if first < 0 or items[first:place] != DESIGNATIONS_OF_OPENING:
                raise ValueError('a mark without its opening')
            units[first - place:] = [OPENING_UNIT]
        else:
            units.append(unit_of(item, sets))
        if item.word == 'designate':
            element, new_set = item.fields
            sets = {**sets, element: new_set}
    return units


# --- The shortest text

def in_order(text):
    """Request #108: the fewest bytes, and among equals the first in byte order."""
    return len(text), text


def shown_from(unit, rests):
    """The best text from a unit on for each element that GL shows, where it begins with the unit. rests has the best
    texts after it."""
    found = {}
    for shown, ways in unit.ways.items():
        rest = rests[unit.shown_after or shown]
        if ways:
            found[shown] = min((way + rest for way in ways), key=in_order)
    return found


def shifted_from(unit, rests):
    """The same, where a locking shift may come first. A second one would undo the first."""
    found = shown_from(unit, rests)
    shifted = [LOCKING_SHIFT[shown] + text for shown, text in found.items()]
    return {shown: min(shifted + ([found[shown]] if shown in found else []), key=in_order) for shown in ELEMENTS}


def shortest_of(items):
    """The shortest 7-bit text that reads as the sequence from the starting state."""
    best = {shown: b'' for shown in ELEMENTS}
    for unit in reversed(units_of(items)):
        best = shifted_from(unit, best)
    return best['G0']


# --- A text, and lent buffers

def shortened(form, text):
    """The shortest 7-bit text for a text in a form, and the first refusal of 1 to 7; where there is one, no output."""
    items, refusal = writer_model.sequence(form, text)
    return (shortest_of(items), None) if refusal is None else (b'', refusal)


def put_into(buffer, work, text, shortened_text):
    """The result for a text, of which shortened() has said this, and what the two lent buffers hold afterwards."""
    output, refusal = shortened_text
    if len(text) > LONGEST_INPUT:
        return Refusal(13, 0), buffer, work
    if len(work) < SHORTEST_WORK:
        return Refusal(14, 0), buffer, work
    result, buffer_after = writer_model.put_into(buffer, output, refusal)
    if isinstance(result, Refusal):
        return result, buffer, work
    return result, buffer_after, bytes(SHORTEST_WORK) + work[SHORTEST_WORK:]


def shorten_into(form, text, buffer, work):
    return put_into(buffer, work, text, shortened(form, text))


def fault_of(items, output):
    """What is wrong with an output, None if nothing is: it must read as the same sequence, and be no longer than the
    text that a conversion writes."""
    found, refusal = writer_model.sequence(7, output)
    if refusal is not None:
        return 'the output is refused with %d at %d' % refusal
    if found != items:
        return 'the output has another sequence'
    return 'a conversion is shorter' if len(output) > len(writer_model.written(7, items)) else None
