/* What the programs survey and convert do, in plain C: the baseline that bench/run holds them against. It was written from the
   paper (document 01), whose sections the comments name, and from request #104 (document 02).

       plain survey [7] < TEXT      what survey prints; with 7 the text is in 7-bit form
       plain convert 7|8 < TEXT     what convert prints; the text is in the other form

   A reader takes one byte at a time, or an opening whole, and gives the answer's word; a writer takes the bytes of what was
   answered from the text. A conversion reads its text once, writes into memory of its own as it goes, and copies that to the lent
   buffer where the text was accepted. Final Bytes of the sets and the number of bytes skipped are not kept, since neither program
   prints them. */

/* The kit has the C library but no headers of it; this is what is used. */
typedef unsigned long size_t;
long read(int file, void *bytes, size_t count);
long write(int file, const void *bytes, size_t count);
int dprintf(int file, const char *format, ...);
int strcmp(const char *left, const char *right);
int memcmp(const void *left, const void *right, size_t count);
void *memcpy(void *to, const void *from, size_t count);

enum { STANDARD_INPUT, STANDARD_OUTPUT, STANDARD_ERROR };

/* 'Refusal numbers', 8: the longest text. A byte makes at most three, as a character of G2 in GR does in 7-bit form. */
enum { LONGEST_TEXT = 65536, LONGEST_OUTPUT = 3 * LONGEST_TEXT };

/* 'Code table and elements': c/r is the byte 16c + r. */
#define AT(column, row) (16 * (column) + (row))
enum { SO = AT(0, 14), SI = AT(0, 15), ESC = AT(1, 11), SS2 = AT(8, 14), SS3 = AT(8, 15), BIT_8 = 0x80 };

enum form { SEVEN, EIGHT };
enum element { G0, G1, G2, G3 };
enum place { GROUND, IN_SEQUENCE, AFTER_SINGLE_SHIFT, IN_CHARACTER, LOST };

/* 'Answer to one byte', in the paper's order, and the answer to an opening taken whole. */
enum answer { NOTHING_YET, CHARACTER, SPACE, DELETE, CONTROL, DESIGNATE, SHIFT, OTHER, REFUSED, SKIPPED, INSTEP, OPENING, ANSWERS };

struct set {
    unsigned char type;  /* 94 or 96 */
    unsigned char bytes; /* to a character */
};

struct reader {
    enum form form;
    enum place place;
    struct set sets[4];             /* of G0 to G3 */
    enum element gl, gr;            /* the elements shown there */
    enum element element;           /* of the character */
    unsigned char area;             /* bit 8 of the character's bytes */
    int bytes_left;                 /* of the character */
    unsigned char intermediates[2]; /* of the sequence */
    int intermediate_count;
    int refusal;                    /* the number, if the last answer was refused */
    int matched;                    /* by a lost reader: the bytes of the opening that have gone by */
};

/* 'Code table and elements', Opening. */
#define BOTH_BEGIN \
    0x1B, 0x21, 0x40, 0x1B, 0x22, 0x43, 0x1B, 0x28, 0x42, 0x1B, 0x2D, 0x46, 0x1B, 0x2E, 0x41, 0x1B, 0x2F, 0x4C
static const unsigned char opening_7[] = {BOTH_BEGIN, 0x0E, 0x0F};
static const unsigned char opening_8[] = {BOTH_BEGIN, 0x0F, 0x1B, 0x7E};

static int opening_length(enum form form)
{
    return form == SEVEN ? sizeof opening_7 : sizeof opening_8;
}

/* 'Code table and elements', Starting state. */
static void start(struct reader *reader, enum form form)
{
    *reader = (struct reader){
        .form = form,
        .place = GROUND,
        .sets = {{94, 1}, {96, 1}, {96, 1}, {96, 1}},
        .gl = G0,
        .gr = G1,
    };
}

/* 'Answer to one byte': the longest beginning of the opening that the bytes end with. Of those that have gone by only a last ESC
   begins an opening anew. */
static int matched_with(const unsigned char *opening, int matched, unsigned char byte)
{
    while (opening[matched] != byte) {
        if (matched == 0)
            return 0;
        matched = matched > 1 && opening[matched - 1] == ESC;
    }
    return matched + 1;
}

static enum answer search(struct reader *reader, unsigned char byte)
{
    const unsigned char *opening = reader->form == SEVEN ? opening_7 : opening_8;
    reader->matched = matched_with(opening, reader->matched, byte);
    if (reader->matched < opening_length(reader->form))
        return SKIPPED;
    start(reader, reader->form);
    return INSTEP;
}

/* 'Answer to one byte': the search begins with the refused byte. 'Refusal numbers': a byte of 128 or more in 7-bit form, which is
   refused in every place, is refused with 1 whatever else is wrong with it. */
static enum answer refuse(struct reader *reader, unsigned char byte, int number)
{
    reader->place = LOST;
    reader->matched = byte == ESC;
    reader->refusal = byte >= AT(8, 0) && reader->form == SEVEN ? 1 : number;
    return REFUSED;
}

/* 'Characters and shifts'. */

static enum answer single_shift(struct reader *reader, enum element element)
{
    reader->place = AFTER_SINGLE_SHIFT;
    reader->element = element;
    return SHIFT;
}

static enum answer show_in_gl(struct reader *reader, enum element element)
{
    reader->gl = element;
    return SHIFT;
}

static enum answer show_in_gr(struct reader *reader, enum element element)
{
    reader->gr = element;
    return SHIFT;
}

/* Under 94 type 2/0 and 7/15 are no position bytes. */
static bool no_position(const struct reader *reader, enum element element, unsigned char byte)
{
    unsigned char position = byte & ~BIT_8;
    return reader->sets[element].type == 94 && (position == AT(2, 0) || position == AT(7, 15));
}

static enum answer first_byte(struct reader *reader, enum element element, unsigned char byte)
{
    reader->element = element;
    if (reader->sets[element].bytes == 1)
        return CHARACTER;
    reader->bytes_left = reader->sets[element].bytes - 1;
    reader->area = byte & BIT_8;
    reader->place = IN_CHARACTER;
    return NOTHING_YET;
}

static enum answer in_character(struct reader *reader, unsigned char byte)
{
    if ((byte & BIT_8) != reader->area || (byte & ~BIT_8) < AT(2, 0))
        return refuse(reader, byte, 6);
    if (no_position(reader, reader->element, byte))
        return refuse(reader, byte, 5);
    if (--reader->bytes_left > 0)
        return NOTHING_YET;
    reader->place = GROUND;
    return CHARACTER;
}

static enum answer after_single_shift(struct reader *reader, unsigned char byte)
{
    if (byte < AT(2, 0) || byte > AT(7, 15))
        return refuse(reader, byte, 6);
    if (no_position(reader, reader->element, byte))
        return refuse(reader, byte, 5);
    reader->place = GROUND;
    return first_byte(reader, reader->element, byte);
}

static enum answer gl_byte(struct reader *reader, unsigned char byte)
{
    if (no_position(reader, reader->gl, byte))
        return byte == AT(2, 0) ? SPACE : DELETE;
    return first_byte(reader, reader->gl, byte);
}

static enum answer gr_byte(struct reader *reader, unsigned char byte)
{
    if (no_position(reader, reader->gr, byte))
        return refuse(reader, byte, 5);
    return first_byte(reader, reader->gr, byte);
}

static bool opening_at(enum form form, const unsigned char *at, const unsigned char *end)
{
    size_t left = end - at;
    if (form == SEVEN)
        return left >= sizeof opening_7 && memcmp(at, opening_7, sizeof opening_7) == 0;
    return left >= sizeof opening_8 && memcmp(at, opening_8, sizeof opening_8) == 0;
}

/* An opening that is read in step begins here: off the ground its ESC is refused. After it the state is the starting one. */
static enum answer c0_byte(struct reader *reader, const unsigned char *at, const unsigned char *end)
{
    switch (*at) {
    case SO:
        return show_in_gl(reader, G1);
    case SI:
        return show_in_gl(reader, G0);
    case ESC:
        if (opening_at(reader->form, at, end)) {
            start(reader, reader->form);
            return OPENING;
        }
        reader->place = IN_SEQUENCE;
        reader->intermediate_count = 0;
        return NOTHING_YET;
    default:
        return CONTROL;
    }
}

static enum answer c1_byte(struct reader *reader, unsigned char byte)
{
    switch (byte) {
    case SS2:
        return single_shift(reader, G2);
    case SS3:
        return single_shift(reader, G3);
    default:
        return CONTROL;
    }
}

/* 'Escape sequences'. */

static enum answer without_intermediate(struct reader *reader, unsigned char final)
{
    if (final >= AT(7, 12) && reader->form == SEVEN)
        return refuse(reader, final, 4);
    switch (final) {
    case AT(6, 14):
        return show_in_gl(reader, G2);
    case AT(6, 15):
        return show_in_gl(reader, G3);
    case AT(7, 14):
        return show_in_gr(reader, G1);
    case AT(7, 13):
        return show_in_gr(reader, G2);
    case AT(7, 12):
        return show_in_gr(reader, G3);
    }
    if (final >= AT(4, 0) && final <= AT(5, 15))
        return c1_byte(reader, final - AT(4, 0) + AT(8, 0));
    return OTHER;
}

/* One of the seven, 2/8 to 2/11 and 2/13 to 2/15, and how many bytes its set has to a character. */
static enum answer designate(struct reader *reader, unsigned char intermediate, unsigned char bytes)
{
    reader->sets[intermediate & 3] = (struct set){intermediate < AT(2, 12) ? 94 : 96, bytes};
    return DESIGNATE;
}

static bool one_of_the_seven(unsigned char intermediate)
{
    return intermediate >= AT(2, 8) && intermediate != AT(2, 12);
}

static bool has_short_sequence(unsigned char final)
{
    return final >= AT(4, 0) && final <= AT(4, 2);
}

static enum answer with_one_intermediate(struct reader *reader, unsigned char intermediate, unsigned char final)
{
    if (one_of_the_seven(intermediate))
        return designate(reader, intermediate, 1);
    switch (intermediate) {
    case AT(2, 0):
    case AT(2, 3):
    case AT(2, 6):
        return OTHER;
    case AT(2, 1):
    case AT(2, 2):
        return DESIGNATE;
    case AT(2, 4):
        if (has_short_sequence(final))
            return designate(reader, AT(2, 8), 2);
    }
    return refuse(reader, final, 4);
}

static enum answer with_two_intermediates(struct reader *reader, const unsigned char *intermediates, unsigned char final)
{
    if (intermediates[0] == AT(2, 4) && one_of_the_seven(intermediates[1])) {
        switch (final >> 4) {
        case 4:
        case 5:
            return designate(reader, intermediates[1], 2);
        case 6:
            return designate(reader, intermediates[1], 3);
        }
    }
    return refuse(reader, final, 4);
}

static enum answer final_byte(struct reader *reader, unsigned char final)
{
    reader->place = GROUND;
    switch (reader->intermediate_count) {
    case 0:
        return without_intermediate(reader, final);
    case 1:
        return with_one_intermediate(reader, reader->intermediates[0], final);
    default:
        return with_two_intermediates(reader, reader->intermediates, final);
    }
}

static enum answer in_sequence(struct reader *reader, unsigned char byte)
{
    if (byte < AT(2, 0) || byte > AT(7, 14))
        return refuse(reader, byte, 2);
    if (byte >= AT(3, 0))
        return final_byte(reader, byte);
    if (reader->intermediate_count == 2)
        return refuse(reader, byte, 3);
    reader->intermediates[reader->intermediate_count++] = byte;
    return NOTHING_YET;
}

/* 'Answer to one byte'. */

static enum answer off_ground(struct reader *reader, unsigned char byte)
{
    switch (reader->place) {
    case IN_SEQUENCE:
        return in_sequence(reader, byte);
    case AFTER_SINGLE_SHIFT:
        return after_single_shift(reader, byte);
    case IN_CHARACTER:
        return in_character(reader, byte);
    default:
        return search(reader, byte);
    }
}

/* The text goes on to the end. Most bytes are read on the ground. This is compiled into the loops that call it, off_ground is
   not. */
[[gnu::always_inline]] static inline enum answer answer_to(struct reader *reader, const unsigned char *at, const unsigned char *end)
{
    unsigned char byte = *at;
    if (reader->place != GROUND)
        return off_ground(reader, byte);
    if (byte < AT(2, 0))
        return c0_byte(reader, at, end);
    if (byte < AT(8, 0))
        return gl_byte(reader, byte);
    if (reader->form == SEVEN)
        return refuse(reader, byte, 1);
    if (byte < AT(10, 0))
        return c1_byte(reader, byte);
    return gr_byte(reader, byte);
}

static const char *end_word(enum place place)
{
    switch (place) {
    case GROUND:
        return "whole";
    case LOST:
        return "lost";
    default:
        return "inside";
    }
}

/* 'The two written forms'. A writer is given an answer and where in the text its last byte stands, with the others before it. An
   opening is written without looking at the text. */

struct writer {
    enum form form;
    enum element gl;    /* the element that GL shows in the output */
    unsigned char *end; /* of the output */
};

static void put(struct writer *writer, unsigned char byte)
{
    *writer->end++ = byte;
}

static void put_sequence(struct writer *writer, const struct reader *reader, const unsigned char *final)
{
    put(writer, ESC);
    if (reader->intermediate_count > 1)
        put(writer, final[-2]);
    if (reader->intermediate_count > 0)
        put(writer, final[-1]);
    put(writer, *final);
}

static void put_c1(struct writer *writer, unsigned char function)
{
    if (writer->form == EIGHT) {
        put(writer, AT(8, 0) + function);
    } else {
        put(writer, ESC);
        put(writer, AT(4, 0) + function);
    }
}

/* Of a C1 function the last byte is its own, 8/0 to 9/15, or the final that stands for it, 4/0 to 5/15. */
static void put_control(struct writer *writer, unsigned char last)
{
    if (last < AT(2, 0))
        put(writer, last);
    else
        put_c1(writer, last & 31);
}

static void put_designation(struct writer *writer, const struct reader *reader, const unsigned char *final)
{
    if (reader->intermediate_count == 2 && final[-1] == AT(2, 8) && has_short_sequence(*final)) {
        put(writer, ESC);
        put(writer, AT(2, 4));
        put(writer, *final);
    } else {
        put_sequence(writer, reader, final);
    }
}

/* SI or SO before what the 7-bit form takes from G0 or G1. */
static void show(struct writer *writer, enum element element)
{
    if (writer->gl != element) {
        put(writer, element == G0 ? SI : SO);
        writer->gl = element;
    }
}

static void put_character(struct writer *writer, const struct reader *reader, const unsigned char *last)
{
    enum element element = reader->element;
    int bytes = reader->sets[element].bytes;
    unsigned char area = 0;
    if (element == G2 || element == G3)
        put_c1(writer, (element == G2 ? SS2 : SS3) - AT(8, 0));
    else if (writer->form == SEVEN)
        show(writer, element);
    else if (element == G1)
        area = BIT_8;
    if (bytes > 2)
        put(writer, (last[-2] & ~BIT_8) | area);
    if (bytes > 1)
        put(writer, (last[-1] & ~BIT_8) | area);
    put(writer, (*last & ~BIT_8) | area);
}

/* The writer has designated the same sets as the reader. In 8-bit form GL shows G0 throughout, which is of 94 type. */
static void put_space_or_delete(struct writer *writer, const struct reader *reader, unsigned char byte)
{
    if (reader->sets[writer->gl].type == 96)
        show(writer, G0);
    put(writer, byte);
}

/* #104: an opening of the form that is read is written as that of the form that is written. It ends with G0 in GL. */
static void put_opening(struct writer *writer)
{
    if (writer->form == SEVEN)
        memcpy(writer->end, opening_7, sizeof opening_7);
    else
        memcpy(writer->end, opening_8, sizeof opening_8);
    writer->end += opening_length(writer->form);
    writer->gl = G0;
}

static void put_answer(struct writer *writer, const struct reader *reader, enum answer answer, const unsigned char *last)
{
    switch (answer) {
    case CHARACTER:
        put_character(writer, reader, last);
        break;
    case SPACE:
        put_space_or_delete(writer, reader, AT(2, 0));
        break;
    case DELETE:
        put_space_or_delete(writer, reader, AT(7, 15));
        break;
    case CONTROL:
        put_control(writer, *last);
        break;
    case DESIGNATE:
        put_designation(writer, reader, last);
        break;
    case OTHER:
        put_sequence(writer, reader, last);
        break;
    case OPENING:
        put_opening(writer);
        break;
    default:
        break;
    }
}

/* 'Refusal numbers': what a conversion returns. */

struct converted {
    int refusal; /* 0 if there is none */
    size_t place;
    size_t length;
};

static struct converted refused(int number, size_t place)
{
    return (struct converted){.refusal = number, .place = place};
}

/* The conversion's own memory: a text that is refused in the end must have changed nothing of the lent buffer. */
static unsigned char draft[LONGEST_OUTPUT];

/* Writes the draft, to the text's first refusal or its end. */
static struct converted write_draft(enum form form, const unsigned char *text, size_t length)
{
    struct writer writer = {.form = form, .gl = G0, .end = draft};
    struct reader reader;
    start(&reader, form == SEVEN ? EIGHT : SEVEN);
    const unsigned char *end = text + length;
    for (const unsigned char *at = text; at < end; at++) {
        enum answer answer = answer_to(&reader, at, end);
        if (answer == REFUSED)
            return refused(reader.refusal, at - text);
        put_answer(&writer, &reader, answer, at);
        if (answer == OPENING)
            at += opening_length(reader.form) - 1;
    }
    if (reader.place != GROUND)
        return refused(7, length);
    return (struct converted){.length = writer.end - draft};
}

static struct converted convert(enum form form, const unsigned char *text, size_t length, unsigned char *output, size_t room)
{
    if (length > LONGEST_TEXT)
        return refused(8, 0);
    struct converted converted = write_draft(form, text, length);
    if (converted.refusal)
        return converted;
    if (converted.length > room)
        return refused(9, 0);
    memcpy(output, draft, converted.length);
    return converted;
}

/* What a text has. */

struct figures {
    size_t counts[ANSWERS];
    int first_refusal; /* 0 if there is none */
    size_t first_place;
    enum place end;
};

/* An opening taken whole is six designations and two shifts. */
static void survey(struct figures *figures, enum form form, const unsigned char *text, size_t length)
{
    struct reader reader;
    start(&reader, form);
    *figures = (struct figures){0};
    const unsigned char *end = text + length;
    for (const unsigned char *at = text; at < end; at++) {
        enum answer answer = answer_to(&reader, at, end);
        figures->counts[answer]++;
        if (answer == REFUSED && figures->first_refusal == 0) {
            figures->first_refusal = reader.refusal;
            figures->first_place = at - text;
        }
        if (answer == OPENING)
            at += opening_length(form) - 1;
    }
    figures->counts[DESIGNATE] += 6 * figures->counts[OPENING];
    figures->counts[SHIFT] += 2 * figures->counts[OPENING];
    figures->end = reader.place;
}

static void print_figures(const struct figures *figures, size_t length)
{
    const size_t *counts = figures->counts;
    bool release = counts[REFUSED] == 0 && figures->end == GROUND;
    dprintf(STANDARD_OUTPUT, "%s\nchar %zu\nspace %zu\ndelete %zu\ncontrol %zu\ndesignate %zu\nshift %zu\nother %zu\nrefused %zu\n",
            release ? "release" : "hold", counts[CHARACTER], counts[SPACE], counts[DELETE], counts[CONTROL], counts[DESIGNATE],
            counts[SHIFT], counts[OTHER], counts[REFUSED]);
    if (figures->first_refusal)
        dprintf(STANDARD_OUTPUT, "first refused %d at %zu\n", figures->first_refusal, figures->first_place);
    dprintf(STANDARD_OUTPUT, "instep %zu\nend %zu %s\n", counts[INSTEP], length, end_word(figures->end));
}

/* The programs. */

static unsigned char text[LONGEST_TEXT + 1]; /* one byte more shows that a text is longer */
static unsigned char output[LONGEST_OUTPUT];

static bool read_text(size_t *length)
{
    long count;
    *length = 0;
    while (*length < sizeof text && (count = read(STANDARD_INPUT, text + *length, sizeof text - *length)) != 0) {
        if (count < 0)
            return false;
        *length += count;
    }
    return true;
}

static void write_all(const unsigned char *bytes, size_t length)
{
    while (length > 0) {
        long count = write(STANDARD_OUTPUT, bytes, length);
        if (count < 0)
            return;
        bytes += count;
        length -= count;
    }
}

static void survey_text(enum form form, size_t length)
{
    if (length > LONGEST_TEXT) {
        dprintf(STANDARD_OUTPUT, "hold\n0 refused 8\n");
        return;
    }
    struct figures figures;
    survey(&figures, form, text, length);
    print_figures(&figures, length);
}

static void convert_text(enum form form, size_t length)
{
    struct converted converted = convert(form, text, length, output, sizeof output);
    if (converted.refusal)
        dprintf(STANDARD_ERROR, "refused %d at %zu\n", converted.refusal, converted.place);
    else
        write_all(output, converted.length);
}

int main(int count, char **words)
{
    const char *program = count > 1 ? words[1] : "";
    const char *argument = count > 2 ? words[2] : "";
    bool seven = strcmp(argument, "7") == 0;
    bool surveys = strcmp(program, "survey") == 0 && (count == 2 || (count == 3 && seven));
    bool converts = strcmp(program, "convert") == 0 && count == 3 && (seven || strcmp(argument, "8") == 0);
    if (!surveys && !converts) {
        dprintf(STANDARD_ERROR, "plain: survey, survey 7, convert 7 or convert 8\n");
        return 2;
    }
    size_t length;
    if (!read_text(&length)) {
        dprintf(STANDARD_ERROR, "%s: standard input cannot be read\n", program);
        return 1;
    }
    if (surveys)
        survey_text(seven ? SEVEN : EIGHT, length);
    else
        convert_text(seven ? SEVEN : EIGHT, length);
    return 0;
}
