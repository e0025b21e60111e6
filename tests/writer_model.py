"""A model of the two writers and of conversion, written from the paper 'What we are building and its rules', and
from the customers' request #104, 'Openings vanish on the way', which puts opening marks into the sequence.

It is slow and plain, as reader_model.py is, which does the reading here. Forms are named by 7 and 8: a
conversion to 7 takes a text in 8-bit form, one to 8 a text in 7-bit form. The titles in quotes in the comments
are the paper's section names.

    import writer_model
    writer_model.sequence(8, text)                       # the sequence of a text, and its first refusal
    writer_model.written(7, items)                       # a sequence in 7-bit form
    writer_model.converted(7, text)                      # the output, and the first of 8, then 1 to 7
    writer_model.convert_into(7, text, buffer)           # the result, and what the lent buffer holds then

tests/model-conversions prints what it says of given cases; tests/texts-for-conversions makes such cases.
"""

from collections import deque, namedtuple

import reader_model
from reader_model import ESC, LONGEST_TEXT, SI, SO, SS2, SS3, at

# A conversion to one form reads the other.
FORM_READ = {7: 8, 8: 7}

# 'Refusal numbers': the number and its place.
Refusal = namedtuple('Refusal', 'number place')
# A conversion that is accepted returns the length of its output.
Done = namedtuple('Done', 'length')
# Request #104: the one item of a sequence that no byte answers.
MARK = reader_model.Answer('mark', ())


# --- The sequence of a text

# The longest texts go through the same few states again and again: so many are remembered.
STATES_REMEMBERED = 4


def remembered(lately, state):
    """The state and what was answered in it to each byte, as far as it is one of the latest."""
    for met in lately:
        if met[0] == state:
            return met
    lately.append((state, {}))
    return lately[-1]


def answers_and_states(form, text):
    """The answer to each byte and the state after it. Where the state is remembered, a byte is answered from what was
    answered to its like."""
    lately = deque(maxlen=STATES_REMEMBERED)
    state, known = remembered(lately, reader_model.start(form))
    for byte in text:
        if byte not in known:
            known[byte] = reader_model.feed(state, byte)
        answer, after = known[byte]
        if after != state:
            state, known = remembered(lately, after)
        yield answer, state


def sequence_with_shifts(form, text):
    """The answers without nothing yet, up to the first refusal, and the marks, each after the shift that ends its
    opening.

    Gives them and the first refusal of 1 to 7 with its place, None if there is none. 7 is met at the end, so it
    comes after 1 to 6; a text that comes back in step is refused all the same.
    """
    state, items = reader_model.start(form), []
    for place, (answer, after) in enumerate(answers_and_states(form, text)):
        if answer.word == 'refused':
            return items, Refusal(answer.fields[0], place)
        if answer.word != 'nothing yet':
            items.append(answer)
        # Before the first refusal there is no instep, so an opening may begin anywhere since the start.
        if answer.word == 'shift' and reader_model.is_mark(state, text, 0, place):
            items.append(MARK)
        state = after
    if reader_model.end_word(state) == 'inside':
        return items, Refusal(7, len(text))
    return items, None


def without_shifts(items):
    return [item for item in items if item.word != 'shift']


def sequence(form, text):
    """'The two written forms': the answers without shifts and nothing yet; request #104: and the marks."""
    items, refusal = sequence_with_shifts(form, text)
    return without_shifts(items), refusal


# --- What both writers write alike

SPACE_OR_DELETE = {'space': at(2, 0), 'delete': at(7, 15)}
# 'Escape sequences': the intermediate that names the element and the type.
INTERMEDIATE = {pair: byte for byte, pair in reader_model.THE_SEVEN.items()}
INTERMEDIATE['C0', 32] = at(2, 1)
INTERMEDIATE['C1', 32] = at(2, 2)


def takes_short_sequence(element, new_set):
    """'The two written forms': 94 sets of 2 bytes into G0 with F 4/0 to 4/2."""
    return (element, new_set.type, new_set.bytes_each) == ('G0', 94, 2) and at(4, 0) <= new_set.final <= at(4, 2)


def designation(element, new_set):
    """The sequence of a designation; there is one only, however it was read."""
    if takes_short_sequence(element, new_set):
        return bytes([ESC, at(2, 4), new_set.final])
    several = [at(2, 4)] if new_set.bytes_each > 1 else []
    return bytes([ESC] + several + [INTERMEDIATE[element, new_set.type], new_set.final])


class Writer:
    """A writer begins in the starting state; each form has its own."""

    def __init__(self, form):
        self.state = reader_model.start(form)

    def designate(self, element, new_set):
        # The state follows: SPACE depends on the type of the set that GL shows now, not when it was shifted in.
        self.state = reader_model.designate(self.state, element, new_set)[1]
        return designation(element, new_set)

    def control(self, element, number):
        return bytes([number]) if element == 'C0' else self.c1_function(number)

    def mark(self):
        """Request #104: the designations of the opening are written already; GL then shows G0."""
        self.state = self.state._replace(gl='G0')
        return self.MARK

    def item(self, item):
        """The bytes of one item of a sequence."""
        word, fields = item
        if word == 'char':
            element, _, positions = fields
            return self.character(element, positions)
        if word in SPACE_OR_DELETE:
            return self.space_or_delete(SPACE_OR_DELETE[word])
        if word == 'control':
            element, _, number = fields
            return self.control(element, number)
        if word == 'designate':
            return self.designate(*fields)
        if word == 'other':
            return bytes([ESC]) + fields[0]
        if item == MARK:
            return self.mark()
        raise ValueError('not written: %s' % word)


# --- The two written forms

class SevenBitWriter(Writer):
    """'The two written forms', 7-bit."""

    SINGLE_SHIFT = {'G2': bytes([ESC, at(4, 14)]), 'G3': bytes([ESC, at(4, 15)])}
    LOCKING_SHIFT = {'G0': bytes([SI]), 'G1': bytes([SO])}
    MARK = bytes.fromhex('0E 0F')

    def __init__(self):
        super().__init__(7)

    def shift_to(self, element):
        """The locking shift that is due before a byte of GL is to be the element's."""
        if self.state.gl == element:
            return b''
        self.state = self.state._replace(gl=element)
        return self.LOCKING_SHIFT[element]

    def character(self, element, positions):
        if element in self.SINGLE_SHIFT:
            return self.SINGLE_SHIFT[element] + positions
        return self.shift_to(element) + positions

    def space_or_delete(self, byte):
        """SI first exactly if GL shows a 96-type set: under 94 type both stand as they are, whatever the element."""
        shown = self.state.sets[self.state.gl]
        shift = self.shift_to('G0') if shown.type == 96 else b''
        return shift + bytes([byte])

    def c1_function(self, number):
        return bytes([ESC, at(4, 0) + number])


class EightBitWriter(Writer):
    """'The two written forms', 8-bit: no locking shift is written but at a mark, where they put into GL and GR what
    is there already: GL shows G0 and GR shows G1 all along."""

    SINGLE_SHIFT = {'G2': bytes([SS2]), 'G3': bytes([SS3])}
    MARK = bytes.fromhex('0F 1B 7E')

    def __init__(self):
        super().__init__(8)

    def character(self, element, positions):
        if element == 'G1':
            return bytes(at(8, 0) + position for position in positions)
        return self.SINGLE_SHIFT.get(element, b'') + positions

    def space_or_delete(self, byte):
        return bytes([byte])

    def c1_function(self, number):
        return bytes([at(8, 0) + number])


WRITERS = {7: SevenBitWriter, 8: EightBitWriter}


def written(form, items):
    """A sequence in one of the two forms."""
    writer = WRITERS[form]()
    return b''.join(writer.item(item) for item in items)


# --- Conversion

def converted(form, text):
    """The output in the form asked for, and the refusal that stands before 9: 8, then the first of 1 to 7.

    Where a text is refused with 1 to 7 the output is what its items up to there give: nothing of it is written.
    """
    if len(text) > LONGEST_TEXT:
        return b'', Refusal(8, 0)
    items, refusal = sequence(FORM_READ[form], text)
    return written(form, items), refusal


def put_into(buffer, output, refusal):
    """'Refusal numbers', below the table: the result, and what the lent buffer holds afterwards."""
    if refusal is not None:
        return refusal, buffer
    if len(buffer) < len(output):
        return Refusal(9, 0), buffer
    return Done(len(output)), output + buffer[len(output):]


def convert_into(form, text, buffer):
    return put_into(buffer, *converted(form, text))


def result_line(result):
    if isinstance(result, Done):
        return 'done %d' % result.length
    return 'refused %d at %d' % result


# --- What must hold of every output

# Those of a mark are left aside.
SHIFTS_WRITTEN = {7: ('LS0', 'LS1', 'SS2', 'SS3'), 8: ('SS2', 'SS3')}


def shifts_but_those_of_marks(items):
    """The names of the shifts; an opening ends with two of them in both forms, and its mark stands after them."""
    names = []
    for item in items:
        if item == MARK:
            del names[-2:]
        elif item.word == 'shift':
            names.append(item.fields[0])
    return names


def fault_of(form, items, output):
    """What is wrong with the output of an accepted text, None if nothing is: read in its own form it must give
    the same sequence, with the same marks, and with no other shifts than those its writer may write."""
    found, refusal = sequence_with_shifts(form, output)
    if refusal is not None:
        return 'the output is refused with %d at %d' % refusal
    if without_shifts(found) != items:
        return 'the output has another sequence'
    if any(name not in SHIFTS_WRITTEN[form] for name in shifts_but_those_of_marks(found)):
        return 'the output has a shift that is not written in this form'
    # The same once more, without a look at states: the bytes of an opening stand together once for each mark.
    if output.count(reader_model.OPENING[form]) != items.count(MARK):
        return 'the output has another number of openings than the sequence has marks'
    return None
