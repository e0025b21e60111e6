"""A model of the reader, written from the paper 'What we are building and its rules' and from nothing else; opening
marks from the customers' request #104, 'Openings vanish on the way'.

It is slow and plain: it says what the paper says, so that a real reader can be compared with it.
The titles in quotes in the comments are the paper's section names.

    import reader_model
    state = reader_model.start(8)                        # the form, 7 or 8
    answer, state = reader_model.feed(state, 0x41)       # one byte
    reader_model.end_word(state)                         # 'whole', 'inside' or 'lost'
    reader_model.is_mark(state, text, 0, offset)         # whether the byte there is an opening mark
    reader_model.listing(8, text)                        # the lines of 'Lister'

tests/model-answers prints what it answers to given texts; tests/texts-for-answers makes such texts.
"""

from collections import namedtuple

# 'Refusal numbers', 8: the longest text that is listed or converted.
LONGEST_TEXT = 65536
# 'Answer to one byte': instep carries the number of bytes skipped, or this if more.
LARGEST_COUNT = 65535


def at(column, row):
    """'Code table and elements': c/r is the byte 16c + r."""
    return 16 * column + row


SO, SI, ESC = at(0, 14), at(0, 15), at(1, 11)
SS2, SS3 = at(8, 14), at(8, 15)

# 'Code table and elements', Opening.
BOTH_BEGIN = bytes.fromhex('1B 21 40 1B 22 43 1B 28 42 1B 2D 46 1B 2E 41 1B 2F 4C')
OPENING = {7: BOTH_BEGIN + bytes.fromhex('0E 0F'), 8: BOTH_BEGIN + bytes.fromhex('0F 1B 7E')}
LONGEST_OPENING = 21


class Set(namedtuple('Set', 'type bytes_each final')):
    """'Code table and elements': a set is its size and its Final Byte; the type is 32, 94 or 96."""

    @property
    def size(self):
        return str(self.type) if self.bytes_each == 1 else '%dx%d' % (self.type, self.bytes_each)


# 'Answer to one byte'. The fields are those of 'Lister', not yet written out:
# char (element, set, position bytes); control (element, F, number); designate (element, set);
# shift (name,); other (bytes after ESC,); refused (number,); instep (count,); the rest have none.
Answer = namedtuple('Answer', 'word fields')

# Where the reader stands between two bytes.
Ground = namedtuple('Ground', '')
InSequence = namedtuple('InSequence', 'intermediates')
AfterSingleShift = namedtuple('AfterSingleShift', 'element')
InsideCharacter = namedtuple('InsideCharacter', 'element area positions')
# The bytes since the refused one, itself included: the last 21 of them, and how many there were.
Lost = namedtuple('Lost', 'bytes_since count')

# sets: element -> Set, never changed in place; gl, gr: the elements shown there.
State = namedtuple('State', 'form sets gl gr place')


def start(form):
    """'Code table and elements', Starting state."""
    sets = {
        'C0': Set(32, 1, at(4, 0)),
        'C1': Set(32, 1, at(4, 3)),
        'G0': Set(94, 1, at(4, 2)),
        'G1': Set(96, 1, at(4, 6)),
        'G2': Set(96, 1, at(4, 1)),
        'G3': Set(96, 1, at(4, 12)),
    }
    return State(form, sets, 'G0', 'G1', Ground())


# --- 'Escape sequences': what a sequence means. None stands for a sequence without meaning.

OTHER = ('other',)
LS_TO_GL = {at(6, 14): 'LS2', at(6, 15): 'LS3'}
LS_TO_GR = {at(7, 14): 'LS1R', at(7, 13): 'LS2R', at(7, 12): 'LS3R'}
ESCAPED_SINGLE_SHIFT = {at(4, 14): 'SS2', at(4, 15): 'SS3'}
# The seven intermediates that name an element and a type.
THE_SEVEN = {
    at(2, 8): ('G0', 94), at(2, 9): ('G1', 94), at(2, 10): ('G2', 94), at(2, 11): ('G3', 94),
    at(2, 13): ('G1', 96), at(2, 14): ('G2', 96), at(2, 15): ('G3', 96),
}
# The last row: bytes to a character by the column of F; columns 3 and 7 are missing, hence no meaning.
SEVERAL_BYTES = {4: 2, 5: 2, 6: 3}


def meaning_without_intermediate(form, final):
    if final >> 4 == 3:
        return OTHER
    if final in ESCAPED_SINGLE_SHIFT:
        return ('shift', ESCAPED_SINGLE_SHIFT[final])
    if at(4, 0) <= final <= at(5, 15):
        return ('C1 function', final - at(4, 0))
    if final in LS_TO_GL:
        return ('shift', LS_TO_GL[final])
    if final in LS_TO_GR:
        return ('shift', LS_TO_GR[final]) if form == 8 else None
    return OTHER


def meaning_with_one_intermediate(intermediate, final):
    if intermediate in (at(2, 0), at(2, 3), at(2, 6)):
        return OTHER
    if intermediate == at(2, 1):
        return ('designate', 'C0', Set(32, 1, final))
    if intermediate == at(2, 2):
        return ('designate', 'C1', Set(32, 1, final))
    if intermediate in THE_SEVEN:
        element, type_ = THE_SEVEN[intermediate]
        return ('designate', element, Set(type_, 1, final))
    if intermediate == at(2, 4) and at(4, 0) <= final <= at(4, 2):
        return ('designate', 'G0', Set(94, 2, final))
    return None


def meaning_with_two_intermediates(first, second, final):
    if first == at(2, 4) and second in THE_SEVEN and final >> 4 in SEVERAL_BYTES:
        element, type_ = THE_SEVEN[second]
        return ('designate', element, Set(type_, SEVERAL_BYTES[final >> 4], final))
    return None


def meaning(form, intermediates, final):
    if len(intermediates) == 0:
        return meaning_without_intermediate(form, final)
    if len(intermediates) == 1:
        return meaning_with_one_intermediate(intermediates[0], final)
    return meaning_with_two_intermediates(intermediates[0], intermediates[1], final)


# --- Steps that several places share. Each gives the answer and the next state.

def stand(state, place):
    return state._replace(place=place)


def nothing_yet(state, place):
    return Answer('nothing yet', ()), stand(state, place)


def refuse(state, number, byte):
    """'Answer to one byte': after a refusal the reader is lost; the search begins with the refused byte."""
    return Answer('refused', (number,)), stand(state, Lost(bytes([byte]), 1))


def control(state, element, number):
    return Answer('control', (element, state.sets[element].final, number)), stand(state, Ground())


SINGLE_SHIFTS = {'SS2': 'G2', 'SS3': 'G3'}
LOCKING_SHIFTS = {
    'LS0': ('gl', 'G0'), 'LS1': ('gl', 'G1'), 'LS2': ('gl', 'G2'), 'LS3': ('gl', 'G3'),
    'LS1R': ('gr', 'G1'), 'LS2R': ('gr', 'G2'), 'LS3R': ('gr', 'G3'),
}


def shift(state, name):
    """'Characters and shifts': a single shift awaits its character, a locking shift is done at once."""
    answer = Answer('shift', (name,))
    if name in SINGLE_SHIFTS:
        return answer, stand(state, AfterSingleShift(SINGLE_SHIFTS[name]))
    area, element = LOCKING_SHIFTS[name]
    return answer, stand(state._replace(**{area: element}), Ground())


def designate(state, element, new_set):
    """'Escape sequences': it takes effect at the final byte. GL and GR name elements, so they follow."""
    sets = dict(state.sets)
    sets[element] = new_set
    return Answer('designate', (element, new_set)), stand(state._replace(sets=sets), Ground())


def character_byte(state, element, area, positions_before, byte):
    """'Characters and shifts': one byte, first or later, of a character of the element's set."""
    its_set = state.sets[element]
    position = byte & 0x7F
    if its_set.type == 94 and not at(2, 1) <= position <= at(7, 14):
        return refuse(state, 5, byte)
    positions = positions_before + bytes([position])
    if len(positions) < its_set.bytes_each:
        return nothing_yet(state, InsideCharacter(element, area, positions))
    return Answer('char', (element, its_set, positions)), stand(state, Ground())


# --- One function for each place.

def area_of(byte):
    """'Code table and elements': columns 0 and 1 are C0, 2 to 7 GL, 8 and 9 C1, 10 to 15 GR."""
    column = byte >> 4
    if column < 2:
        return 'C0'
    if column < 8:
        return 'GL'
    return 'C1' if column < 10 else 'GR'


def feed_ground(state, byte):
    """'Characters and shifts'. SI, SO, ESC, SS2, SS3 keep their places in every control set."""
    if byte == ESC:
        return nothing_yet(state, InSequence(b''))
    if byte in (SI, SO):
        return shift(state, 'LS0' if byte == SI else 'LS1')
    if byte in (SS2, SS3):
        return shift(state, 'SS2' if byte == SS2 else 'SS3')
    area = area_of(byte)
    if area == 'C0':
        return control(state, 'C0', byte)
    if area == 'C1':
        return control(state, 'C1', byte - at(8, 0))
    if area == 'GR':
        return character_byte(state, state.gr, 'GR', b'', byte)
    if state.sets[state.gl].type == 94 and byte in (at(2, 0), at(7, 15)):
        return Answer('space' if byte == at(2, 0) else 'delete', ()), state
    return character_byte(state, state.gl, 'GL', b'', byte)


def feed_sequence(state, byte):
    """'Escape sequences', with refusals 2, 3 and 4 of 'Refusal numbers'."""
    intermediates = state.place.intermediates
    if not at(2, 0) <= byte <= at(7, 14):
        return refuse(state, 2, byte)
    if byte >> 4 == 2:
        if len(intermediates) == 2:
            return refuse(state, 3, byte)
        return nothing_yet(state, InSequence(intermediates + bytes([byte])))
    found = meaning(state.form, intermediates, byte)
    if found is None:
        return refuse(state, 4, byte)
    if found == OTHER:
        return Answer('other', (intermediates + bytes([byte]),)), stand(state, Ground())
    if found[0] == 'C1 function':
        return control(state, 'C1', found[1])
    if found[0] == 'shift':
        return shift(state, found[1])
    return designate(state, found[1], found[2])


def feed_after_single_shift(state, byte):
    """'Characters and shifts': one whole character, from GL bytes only. 6 is tested before 5."""
    if area_of(byte) != 'GL':
        return refuse(state, 6, byte)
    return character_byte(state, state.place.element, 'GL', b'', byte)


def feed_character(state, byte):
    """'Characters and shifts': all bytes of one character come from the same area. 6 is tested before 5."""
    element, area, positions = state.place
    if area_of(byte) != area:
        return refuse(state, 6, byte)
    return character_byte(state, element, area, positions, byte)


def feed_lost(state, byte):
    """'Answer to one byte': skipped until the bytes since the refused one end with the form's opening."""
    bytes_since = (state.place.bytes_since + bytes([byte]))[-LONGEST_OPENING:]
    count = state.place.count + 1
    if bytes_since.endswith(OPENING[state.form]):
        return Answer('instep', (min(count, LARGEST_COUNT),)), start(state.form)
    return Answer('skipped', ()), stand(state, Lost(bytes_since, count))


FEEDERS = {
    Ground: feed_ground,
    InSequence: feed_sequence,
    AfterSingleShift: feed_after_single_shift,
    InsideCharacter: feed_character,
}


def feed(state, byte):
    """'Answer to one byte': the answer and the next state."""
    if isinstance(state.place, Lost):
        return feed_lost(state, byte)
    # 'Refusal numbers': 1 is tested before all others.
    if state.form == 7 and byte >= 128:
        return refuse(state, 1, byte)
    return FEEDERS[type(state.place)](state, byte)


def end_word(state):
    """'Answer to one byte', its last sentence; 'Refusal numbers', 7, says what inside is."""
    if isinstance(state.place, Lost):
        return 'lost'
    return 'whole' if isinstance(state.place, Ground) else 'inside'


def is_mark(state, text, since, offset):
    """Request #104: the last byte of a complete opening, read by a reader that isn't lost, is an opening mark.

    state is the reader's before the byte at the offset. since is the offset that the bytes of the opening may begin
    at: 0, or the one after the latest instep. The byte's own answer stays what it is, and so does the state.
    """
    in_step = not isinstance(state.place, Lost)
    return in_step and text.endswith(OPENING[state.form], since, offset + 1)


def read(form, text):
    """The answers to all bytes of a text, read from the starting state, and the end word."""
    state = start(form)
    answers = []
    for byte in text:
        answer, state = feed(state, byte)
        answers.append(answer)
    return answers, end_word(state)


# --- 'Lister'

def two_digits(values):
    return ['%02X' % value for value in values]


def fields_written(answer):
    """The fields of an answer as the words that 'Lister' prints."""
    word, fields = answer
    if word == 'char':
        element, its_set, positions = fields
        return [element, its_set.size] + two_digits([its_set.final]) + two_digits(positions)
    if word == 'control':
        return [fields[0]] + two_digits(fields[1:])
    if word == 'designate':
        element, new_set = fields
        return [element, new_set.size] + two_digits([new_set.final])
    if word == 'other':
        return two_digits(fields[0])
    return [str(field) for field in fields]


def answer_line(offset, answer):
    return ' '.join([str(offset), answer.word] + fields_written(answer))


def end_line(length, word):
    return 'end %d %s' % (length, word)


def listing_of(answers, word):
    """'Lister': a line per answer, except nothing yet and skipped; a longer text has one line only."""
    if len(answers) > LONGEST_TEXT:
        return ['0 refused 8']
    lines = [answer_line(offset, answer) for offset, answer in enumerate(answers)
             if answer.word not in ('nothing yet', 'skipped')]
    return lines + [end_line(len(answers), word)]


def listing(form, text):
    return listing_of(*read(form, text))


# --- The survey of a text: how many answers it has of each word.

SURVEYED = ('char', 'space', 'delete', 'control', 'designate', 'shift', 'other', 'refused', 'instep')

# first_refused: the number and the offset of the first refusal, or None.
Survey = namedtuple('Survey', 'figures first_refused')


def survey_of(answers):
    figures = dict.fromkeys(SURVEYED, 0)
    first_refused = None
    for offset, (word, fields) in enumerate(answers):
        if word in figures:
            figures[word] += 1
        if word == 'refused' and first_refused is None:
            first_refused = (fields[0], offset)
    return Survey(tuple(figures[word] for word in SURVEYED), first_refused)


def survey_lines(answers):
    """The survey as lines; a text too long to be listed is refused as a whole, with 8 at 0."""
    if len(answers) > LONGEST_TEXT:
        return ['survey refused 8 at 0']
    survey = survey_of(answers)
    lines = ['survey ' + ' '.join(str(figure) for figure in survey.figures)]
    if survey.first_refused is not None:
        lines.append('first refused %d at %d' % survey.first_refused)
    return lines
