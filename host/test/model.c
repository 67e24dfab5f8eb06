#include "model.h"

#include <string.h>

/* ---- states and lengths */

static int bit(uint32_t n, int b)
{
    return (int)(n >> b & 1);
}

/* 16 and its doubles up to a half. */
static int partition(unsigned length)
{
    for (unsigned n = 16; n <= 128; n += n)
        if (length == n)
            return 1;
    return (FAULT == 31 && length == 8) || (FAULT == 38 && length == 0); /* a length of 8, or of 0, accepted */
}

static int vram_allowed(linkshoar_vram s)
{
    if (s.persistent > 1 || s.loaded > 1 || s.waiting > 1)
        return 0;
    if (FAULT != 35 && !partition(s.stop)) /* the stored length not tested */
        return 0;
    if (s.waiting == 0)
        return s.tap == 0;
    return s.loaded && (s.tap < 128) != (s.pointer < 128);
}

static int palette_allowed(linkshoar_palette p)
{
    return p.phase <= 2 && p.red <= 63 && p.green <= 63 && p.blue <= 63;
}

static int rows_fitted(size_t words)
{
    for (size_t rows = 1; rows <= 512; rows++)
        if (words == 512 * rows)
            return 1;
    return 0;
}

linkshoar_vram model_vram_fresh(void)
{
    linkshoar_vram s;
    memset(&s, 0, sizeof s);
    s.stop = 128;
    return s;
}

linkshoar_palette model_palette_fresh(void)
{
    linkshoar_palette p;
    memset(&p, 0, sizeof p);
    p.mask = 255;
    return p;
}

/* ---- cycles, as fields of a list */

static unsigned pair(const uint8_t *at)
{
    return 256u * at[0] + at[1];
}

int model_body_bytes(int tag)
{
    switch (tag) {
    case 1: case 2: return 10;
    case 3: case 4: return 3;
    case 5: return 0;
    case 6: case 7: return 4;
    case 8: return FAULT == 33 ? 1 : -1; /* tag 8 known */
    case 9: return 1;
    default: return -1;
    }
}

model_field model_field_read(const uint8_t *f)
{
    model_field r;
    const uint8_t *b = f + 3;
    memset(&r, 0, sizeof r);
    r.tag = f[0];
    r.length = pair(f + 1);
    switch (r.tag) {
    case 1: case 2:
        r.row = pair(b);
        r.column = pair(b + 2);
        r.data = pair(b + 4);
        r.masking = b[6];
        r.mask = pair(b + 7);
        r.strobes = b[9];
        break;
    case 3: case 4:
        r.data = pair(b);
        r.strobes = b[2];
        break;
    case 6: case 7:
        r.row = pair(b);
        r.half = b[2];
        r.tap = b[3];
        break;
    case 9:
        r.stop = b[0];
        break;
    default:
        break;
    }
    return r;
}

#if FAULT == 101 /* whether a word write is refused goes by a result */
#define TOLD(field, memory) ((field)[0] == 1 && (memory)[0] % 256 < 8)
#else
#define TOLD(field, memory) 0
#endif

/* What refuses the field at the start of these bytes. */
static uint32_t field_number(const uint8_t *bytes, size_t left, size_t rows, int loaded)
{
    if (left < 3 || model_body_bytes(bytes[0]) < 0 || pair(bytes + 1) != (unsigned)model_body_bytes(bytes[0]) || left - 3 < pair(bytes + 1))
        return 4;
    model_field f = model_field_read(bytes);
    switch (f.tag) {
    case 1: case 2:
        if (f.row >= rows)
            return 5;
        if (f.column > 511)
            return 6;
        if (f.strobes < 1 || f.strobes > 3)
            return 7;
        if (f.masking > 1 || (f.masking == 0 && f.mask != 0))
            return 8;
        return 0;
    case 3: case 4:
        return f.strobes < 1 || f.strobes > 3 ? 7 : 0;
    case 6:
        if (f.row >= rows)
            return 5;
        return f.half > 1 ? 9 : 0;
    case 7:
        if (f.row >= rows)
            return 5;
        if (f.half > 1 || f.tap > 127)
            return 9;
        return loaded ? 0 : 10;
    case 9:
        return partition(f.stop) && (FAULT != 34 || f.stop != 128) ? 0 : 19; /* a length of 128 refused */
    default:
        return 0;
    }
}

/* Whether strobes and mask in force let bit i through. */
static int let_through(linkshoar_vram s, model_field f, int i)
{
    unsigned force = 0xFFFF, strobes = f.strobes;
    if (f.masking == 1)
        force = s.persistent ? s.mask : f.mask;
#if FAULT == 2 /* the mask given with the cycle used while the mask is persistent */
    if (f.masking == 1)
        force = f.mask;
#endif
#if FAULT == 3 /* plain writes masked in persistent mode */
    if (f.masking == 0 && s.persistent)
        force = s.mask;
#endif
#if FAULT == 6 /* byte strobes ignored on block writes: version one */
    if (f.tag == 2)
        strobes = 3;
#endif
    return bit(strobes, i / 8) && bit(force, i);
}

static void put_bit(uint16_t *word, int i, int value)
{
    *word = (uint16_t)((*word & ~(1u << i)) | (unsigned)value << i);
}

static void run_field(linkshoar_vram *s, uint16_t *memory, uint16_t *serial, model_field f)
{
    switch (f.tag) {
    case 1:
        for (int i = 0; i < 16; i++) {
            uint16_t *word = &memory[512 * f.row + f.column];
            if (let_through(*s, f, i))
                put_bit(word, i, bit(f.data, i));
            else if (FAULT == 97 && i >= 8) /* what is left of the mark takes the result's bits */
                put_bit(word, i, bit(*word, i - 8));
        }
        break;
    case 2:
        for (int j = 0; j < 4; j++)
            for (int i = 0; i < 16; i++) {
                uint16_t *word = &memory[512 * f.row + f.column / 4 * 4 + (unsigned)j];
                int column = bit(f.data, 4 * (i / 4) + j);
#if FAULT == 1 /* one four-bit column mask for all quads */
                column = bit(f.data, j);
#elif FAULT == 98 /* whether the mark is written goes by the result's lowest bit */
                if (i >= 8)
                    column = bit(*word, 0);
#endif
                if (column && let_through(*s, f, i))
                    put_bit(word, i, bit(s->colour, i));
            }
        break;
    case 3:
        for (int i = 0; i < 16; i++)
            if (bit(f.strobes, i / 8))
                put_bit(&s->colour, i, bit(f.data, i));
        break;
    case 4:
        for (int i = 0; i < 16; i++)
            if (bit(f.strobes, i / 8))
                put_bit(&s->mask, i, bit(f.data, i));
        s->persistent = 1;
        break;
    case 5:
        if (FAULT != 32 && (FAULT != 37 || s->persistent)) /* the length kept; kept where no mask was persistent */
            s->stop = 128;
        s->persistent = 0;
        break;
    case 6:
        for (unsigned i = 0; i < 256; i++) {
            serial[i] = memory[512 * f.row + 256 * f.half + i];
            if (FAULT == 99 && serial[i] % 256 == 255) /* over a result of 255 the mark is lost */
                serial[i] = 255;
        }
        s->loaded = 1;
        s->pointer = (uint8_t)f.tap;
        s->waiting = 0;
        s->tap = 0;
        break;
    case 7: {
        unsigned h = s->pointer < 128 ? 1 : 0;
#if FAULT == 4 /* a second split transfer before the boundary ignored */
        if (s->waiting)
            break;
#endif
        for (unsigned i = 0; i < 128; i++)
            serial[128 * h + i] = memory[512 * f.row + 256 * f.half + 128 * h + i];
        s->waiting = 1;
        s->tap = (uint8_t)(128 * h + f.tap);
        break;
    }
    case 9:
        s->stop = (uint8_t)f.stop;
#if FAULT == 36 /* stop points drop a waiting tap */
        s->waiting = s->tap = 0;
#endif
        break;
    default:
        break;
    }
}

uint32_t model_field_run(linkshoar_vram *s, uint16_t *memory, size_t words, uint16_t *serial, const uint8_t *field, size_t bytes)
{
    uint32_t number = field_number(field, bytes, words / 512, s->loaded);
    if (!number && TOLD(field, memory))
        number = 8;
    if (!number)
        run_field(s, memory, serial, model_field_read(field));
    return number;
}

/* ---- the plain engine: change request M-105, by its words */

/* A word write, bit by bit, through a mask that is taken as given. */
static void pencil_word(uint16_t *word, unsigned data, unsigned mask, unsigned strobes)
{
    for (int i = 0; i < (FAULT == 71 ? 15 : 16); i++) { /* one bit short */
        int strobe = FAULT == 72 ? bit(strobes, 1) : bit(strobes, i / 8); /* the high strobe on the low byte */
        if (FAULT == 100 && i == 8 && bit(*word, 0)) /* over an odd result the low byte's strobe covers bit 8 */
            strobe = strobe || bit(strobes, 0);
        if (strobe && bit(mask, i))
            put_bit(word, i, bit(data, i));
    }
}

/* The bits of a mask that column j of a block has left: a quad keeps its four where the column mask has the quad's bit j. */
static unsigned bits_left(unsigned columns, unsigned mask, unsigned j)
{
    unsigned left = 0;
    for (unsigned quad = 0; quad < 4; quad++) {
        unsigned from = FAULT == 69 ? (quad + 1) % 4 : quad; /* the bit taken from the next quad */
        if (columns >> (4 * from + j) & 1)
            left += mask & 15u << 4 * quad;
    }
    return left;
}

/* A block write as four word writes, all else as it was; f is a field that is not refused. */
static void run_pencil(linkshoar_vram *s, uint16_t *memory, uint16_t *serial, model_field f)
{
    unsigned force = f.masking ? s->persistent ? s->mask : f.mask : 0xFFFF;
    if (f.tag == 1)
        pencil_word(memory + 512 * f.row + f.column, f.data, force, f.strobes);
    else if (f.tag == 2) {
        if (FAULT == 70 && f.masking) /* the persistent mask forgotten inside a block */
            force = f.mask;
        for (unsigned j = 0; j < (FAULT == 75 ? 3 : 4); j++) { /* the last column left out */
            unsigned left = bits_left(f.data, force, j);
            if (FAULT == 73 && s->persistent) /* a word write inside a block looks at the mask register again */
                left = s->mask;
            pencil_word(memory + 512 * f.row + f.column / 4 * 4 + j, s->colour, left, FAULT == 74 ? 3 : f.strobes); /* its strobes ignored */
        }
    } else
        run_field(s, memory, serial, f);
}

/* ---- lists, by either engine */

typedef void engine(linkshoar_vram *s, uint16_t *memory, uint16_t *serial, model_field f);

/* The offset of the last mask load that has no reset refresh after it, or the length where there is none: each is asked by itself. */
static size_t left_open(const uint8_t *list, size_t length)
{
    size_t open = length;
    for (size_t at = 0, next; at < length; at = next) {
        int reset = 0;
        next = at + 3 + pair(list + at + 1);
        if (list[at] != 4 && (FAULT != 43 || list[at] != 5)) /* a reset refresh taken for a mask load: a list that only resets refused */
            continue;
        for (size_t later = FAULT == 42 ? 0 : next; later < length; later += 3 + pair(list + later + 1)) /* one before the load counted */
            reset = reset || list[later] == 5;
        if (FAULT == 41 && reset) /* a mask load, a reset refresh and another mask load accepted */
            return length;
        if (!reset && (FAULT != 40 || open == length)) /* the offset of the first */
            open = at;
    }
    return FAULT == 39 ? length : open; /* never refused: the rule before M-111 */
}

uint32_t model_given(linkshoar_vram state, size_t words, size_t serial_words)
{
    if (!vram_allowed(state))
        return 1;
    if (!rows_fitted(words))
        return 2;
    return serial_words == 256 ? 0 : 3;
}

static linkshoar_ran list_run(engine *run, linkshoar_vram state, uint16_t *memory, size_t words, uint16_t *serial, size_t serial_words,
                              const uint8_t *list, size_t length)
{
    linkshoar_ran r;
    memset(&r, 0, sizeof r);
    r.state = state;
    r.number = model_given(state, words, serial_words);
    if (r.number)
        return r;
    int loaded = state.loaded;
    for (size_t at = 0; at < length; at += 3 + pair(list + at + 1)) {
        r.number = field_number(list + at, length - at, words / 512, loaded);
        if (!r.number && TOLD(list + at, memory))
            r.number = 8;
        if (r.number) {
            r.place = at;
            if (FAULT == 44 && left_open(list, at) < at) { /* 20 before a later field's own number */
                r.number = 20;
                r.place = left_open(list, at);
            }
            return r;
        }
        if (list[at] == 6)
            loaded = 1;
    }
    size_t open = left_open(list, length);
    if (FAULT == 45 && state.persistent && length && open == length) /* a mask that came in persistent counted */
        open = 0;
    if (open < length) {
        r.number = 20;
        r.place = open;
#if FAULT == 46 /* refused, but the mask load made */
        run_field(&r.state, memory, serial, model_field_read(list + open));
#endif
        return r;
    }
    for (size_t at = 0; at < length; at += 3 + pair(list + at + 1))
        run(&r.state, memory, serial, model_field_read(list + at));
    return r;
}

linkshoar_ran model_list_run(linkshoar_vram state, uint16_t *memory, size_t words, uint16_t *serial, size_t serial_words,
                             const uint8_t *list, size_t length)
{
    return list_run(run_field, state, memory, words, serial, serial_words, list, length);
}

linkshoar_ran model_pencil_run(linkshoar_vram state, uint16_t *memory, size_t words, uint16_t *serial, size_t serial_words,
                               const uint8_t *list, size_t length)
{
    linkshoar_ran r = list_run(run_pencil, state, memory, words, serial, serial_words, list, length);
#if FAULT == 76 /* a refused list draws the fields before */
    if (r.number > 3)
        list_run(run_pencil, state, memory, words, serial, serial_words, list, (size_t)r.place);
#endif
    return r;
}

/* ---- marks of rows */

/* Row r is bit r mod 8 of byte r / 8. */
static int marked(const uint8_t *marks, uint32_t row)
{
    return bit(marks[row / 8], FAULT == 58 ? 7 - (int)(row % 8) : (int)(row % 8)); /* the bits of a byte the other way round */
}

static void mark(uint8_t *marks, uint32_t row)
{
    if (!marked(marks, row))
        marks[row / 8] = (uint8_t)(marks[row / 8] + (1u << (FAULT == 58 ? 7 - row % 8 : row % 8)));
}

/* The rows that the writes among the first so many bytes of a list name. */
static void mark_rows(uint8_t *marks, const uint8_t *list, size_t length, const uint16_t *before, const uint16_t *memory)
{
    for (size_t at = 0; at < length; at += 3 + pair(list + at + 1)) {
        model_field f = model_field_read(list + at);
        int writes = (f.tag == 1 && FAULT != 56) || (f.tag == 2 && FAULT != 67); /* only block writes, only word writes */
        if (FAULT == 57 && (f.tag == 6 || f.tag == 7)) /* the row of a transfer too */
            writes = 1;
        if (FAULT == 62 && writes && !memcmp(before + 512 * f.row, memory + 512 * f.row, 1024)) /* only a row that was changed */
            writes = 0;
        if (writes)
            mark(marks, f.row);
    }
}

static linkshoar_ran list_run_marked(engine *run, linkshoar_vram state, uint16_t *memory, size_t words, uint16_t *serial,
                                     size_t serial_words, uint8_t *marks, size_t marks_bytes, const uint8_t *list, size_t length)
{
    static uint16_t before[513 * 512];
    linkshoar_ran r;
    memset(&r, 0, sizeof r);
    r.state = state;
    if (FAULT == 60 && marks_bytes != 64) /* 18 before 1 to 3 */
        r.number = 18;
    else if (vram_allowed(state) && rows_fitted(words) && serial_words == 256 && marks_bytes != 64 && FAULT != 64)
        r.number = 18;
    if (r.number)
        return r;
    if (FAULT == 62 && words)
        memcpy(before, memory, 2 * words);
    r = list_run(run, state, memory, words, serial, serial_words, list, length);
    if (!r.number && marks_bytes != 64) { /* fault 64: 18 given when the list has run */
        r.state = state;
        r.number = 18;
        return r;
    }
    if (FAULT == 65 && !r.number) /* the marks of the lists before forgotten */
        memset(marks, 0, 64);
    if (!r.number)
        mark_rows(marks, list, length, before, memory);
    else if (FAULT == 59 && r.number > 3 && marks_bytes == 64) /* a refused list marks the rows of the fields before */
        mark_rows(marks, list, (size_t)r.place, before, memory);
    return r;
}

linkshoar_ran model_list_run_marked(linkshoar_vram state, uint16_t *memory, size_t words, uint16_t *serial, size_t serial_words,
                                    uint8_t *marks, size_t marks_bytes, const uint8_t *list, size_t length)
{
    return list_run_marked(run_field, state, memory, words, serial, serial_words, marks, marks_bytes, list, length);
}

linkshoar_ran model_pencil_run_marked(linkshoar_vram state, uint16_t *memory, size_t words, uint16_t *serial, size_t serial_words,
                                      uint8_t *marks, size_t marks_bytes, const uint8_t *list, size_t length)
{
#if FAULT == 77 /* the plain engine marks no row */
    static uint8_t none[64];
    marks = marks_bytes == 64 ? none : marks;
#endif
#if FAULT == 78 /* it runs a list whatever the length of the marks */
    if (marks_bytes != 64)
        return model_pencil_run(state, memory, words, serial, serial_words, list, length);
#endif
    return list_run_marked(run_pencil, state, memory, words, serial, serial_words, marks, marks_bytes, list, length);
}

uint32_t model_marks_clear(uint8_t *marks, size_t marks_bytes)
{
    if (marks_bytes != 64)
        return 18;
    for (size_t i = 0; i < (FAULT == 63 ? 63 : 64); i++) /* the last byte left */
        marks[i] = 0;
    return 0;
}

linkshoar_marked model_marks_next(const uint8_t *marks, size_t marks_bytes, uint32_t start)
{
    linkshoar_marked r = {0, 0, 0};
    if (marks_bytes != 64)
        r.number = 18;
    else if (start > 511)
        r.number = FAULT == 66 ? 0 : 5; /* a start row over 511 answered with none */
    if (FAULT == 68 && start > 511) /* 5 before 18 */
        r.number = 5;
    if (r.number)
        return r;
    for (uint32_t row = start + (FAULT == 61); row < 512 && !r.found; row++) /* from the row after the start */
        if (marked(marks, row)) {
            r.found = 1;
            r.row = row;
        }
    return r;
}

/* ---- word read and serial clock */

linkshoar_word model_word_read(const uint16_t *memory, size_t words, uint32_t row, uint32_t column, uint32_t strobes)
{
    linkshoar_word r;
    memset(&r, 0, sizeof r);
    if (!rows_fitted(words))
        r.number = 2;
    else if (row >= words / 512)
        r.number = 5;
    else if (column > 511)
        r.number = 6;
    else if (strobes < 1 || strobes > 3)
        r.number = 7;
    else
        for (int i = 0; i < 16; i++)
            if (bit(strobes, i / 8))
                put_bit(&r.word, i, bit(memory[512 * row + column], i));
    return r;
}

/* The last place of a partition: one of those that lie a length apart. */
static int stop_point(linkshoar_vram s)
{
#if FAULT == 30 /* the tap taken at a half's end only: the rule before M-107 */
    s.stop = 128;
#endif
    for (unsigned last = s.stop - 1u; last < 256; last += s.stop)
        if (s.pointer == last)
            return 1;
    return 0;
}

static void clock_once(linkshoar_vram *s)
{
    if (stop_point(*s) && s->waiting) {
        s->pointer = s->tap;
        s->waiting = 0;
        s->tap = 0;
    } else {
        s->pointer = s->pointer == 255 ? 0 : (uint8_t)(s->pointer + 1);
    }
}

linkshoar_clocked model_serial_clock(linkshoar_vram state, const uint16_t *serial, size_t serial_words)
{
    linkshoar_clocked r;
    memset(&r, 0, sizeof r);
    r.state = state;
    if (!vram_allowed(state))
        r.number = 1;
    else if (serial_words != 256)
        r.number = 3;
    else if (!state.loaded)
        r.number = 10;
    else {
        r.word = serial[state.pointer];
        clock_once(&r.state);
    }
    return r;
}

/* ---- palette and panel */

/* The registers take entry A, the low six bits of each byte, and A goes up by one. */
static void take_entry(linkshoar_palette *p, const uint8_t *table)
{
    p->red = table[3 * p->address] % 64;
    p->green = table[3 * p->address + 1] % 64;
    p->blue = table[3 * p->address + 2] % 64;
    p->address++;
}

linkshoar_accessed model_palette_write(linkshoar_palette state, uint8_t *table, size_t table_bytes, uint32_t select, uint8_t value)
{
    linkshoar_accessed r;
    memset(&r, 0, sizeof r);
    r.state = state;
    if (!palette_allowed(state))
        r.number = 1;
    else if (table_bytes != 768)
        r.number = 3;
    else if (select > 3)
        r.number = 11;
    if (r.number)
        return r;
    linkshoar_palette *p = &r.state;
    if (select == 0 || select == 3) {
        p->address = value;
#if FAULT != 5 /* palette phase kept across an address write: version two */
        p->phase = 0;
#endif
    }
    if (select == 3)
        take_entry(p, table);
    if (select == 2)
        p->mask = value;
    if (select == 1) {
        if (p->phase == 0)
            p->red = value % 64;
        else if (p->phase == 1)
            p->green = value % 64;
        else
            p->blue = value % 64;
        if (p->phase++ == 2) {
            table[3 * p->address] = p->red;
            table[3 * p->address + 1] = p->green;
            table[3 * p->address + 2] = p->blue;
            p->address++;
            p->phase = 0;
        }
    }
    return r;
}

linkshoar_accessed model_palette_read(linkshoar_palette state, const uint8_t *table, size_t table_bytes, uint32_t select)
{
    linkshoar_accessed r;
    memset(&r, 0, sizeof r);
    r.state = state;
    if (!palette_allowed(state))
        r.number = 1;
    else if (table_bytes != 768 && (FAULT != 20 || select == 1)) /* 3 given for a colour read alone */
        r.number = 3;
    else if (select > 2)
        r.number = 11;
    else if (select == 0)
        r.byte = state.address;
    else if (select == 2)
        r.byte = state.mask;
    else {
        r.byte = state.phase == 0 ? state.red : state.phase == 1 ? state.green : state.blue;
        r.state.phase = (uint8_t)((state.phase + 1) % 3);
        if (state.phase == 2 && FAULT != 18) /* a read of blue that takes no entry: the rule before M-102 */
            take_entry(&r.state, table);
#if FAULT == 19 /* the blue of the entry just taken answered */
        if (state.phase == 2)
            r.byte = r.state.blue;
#endif
    }
    return r;
}

/* The entry that a word shows: its high byte; under 0 its low byte; under 255 its low byte, each bit the other way; then the pixel mask. */
static unsigned entry_of(unsigned word, unsigned mask)
{
    unsigned high = word / 256, low = word % 256, reverse = 0;
    for (int b = 0; b < 8; b++)
        if (!bit(low, b))
            reverse += 1u << b;
#if FAULT == 21 /* 255 shown as a mark: the rule before M-101 */
    reverse = 255;
#elif FAULT == 22 /* under 255 the low byte as it is */
    reverse = low;
#elif FAULT == 23 /* inverted after the pixel mask */
    if (high == 255)
        return 255 - (low & mask);
#elif FAULT == 24 /* 254 in reverse too */
    if (high == 254)
        high = 255;
#elif FAULT == 102 /* over a result of 200 and more the mark does not show */
    if (high != 255 && low >= 200)
        high = 0;
#endif
    return (high == 0 ? low : high == 255 ? reverse : high) & mask;
}

/* A byte of the table as the panel takes it: its low six bits, or eight bits that begin with these six and go on with the top two of them
 * again. */
static uint8_t part_of(unsigned byte, int bits)
{
    unsigned six = byte % 64, eight = 0;
    for (int b = 0; b < 8; b++)
        if (bit(six, (b + 4) % 6))
            eight += 1u << b;
#if FAULT == 25 /* four times the part, and no sixteenth: the brightest is 252 */
    eight = 4 * six;
#elif FAULT == 26 /* the sixteenth rounded up */
    eight = 4 * six + (six + 15) / 16;
#elif FAULT == 27 /* the run that names six bits widened too */
    bits = 8;
#elif FAULT == 28 /* the default left at six bits: the rule before M-108 */
    bits = 6;
#elif FAULT == 29 /* in proportion, 63 to 255 */
    eight = 255 * six / 63;
#endif
    return (uint8_t)(bits == 6 ? six : eight);
}

static linkshoar_shown run(int bits, linkshoar_vram state, const uint16_t *serial, size_t serial_words, linkshoar_palette palette,
                           const uint8_t *table, size_t table_bytes, uint32_t clocks, uint32_t blank, uint8_t *out, size_t out_bytes)
{
    linkshoar_shown r;
    memset(&r, 0, sizeof r);
    r.state = state;
    if (!vram_allowed(state) || !palette_allowed(palette))
        r.number = 1;
    else if (serial_words != 256 || table_bytes != 768)
        r.number = 3;
    else if (clocks && !state.loaded)
        r.number = 10;
    else if (clocks > 512)
        r.number = 14;
    else if (out_bytes < 3 * (size_t)clocks)
        r.number = 15;
    if (r.number)
        return r;
    for (uint32_t i = 0; i < clocks; i++) {
        unsigned word = serial[r.state.pointer];
        unsigned entry = entry_of(word, palette.mask);
        for (int part = 0; part < 3; part++)
            out[3 * i + (uint32_t)part] = blank ? 0 : part_of(table[3 * entry + (unsigned)part], bits);
        clock_once(&r.state);
    }
    return r;
}

linkshoar_shown model_panel_run(linkshoar_vram state, const uint16_t *serial, size_t serial_words, linkshoar_palette palette,
                                const uint8_t *table, size_t table_bytes, uint32_t clocks, uint32_t blank, uint8_t *out, size_t out_bytes)
{
    return run(8, state, serial, serial_words, palette, table, table_bytes, clocks, blank, out, out_bytes);
}

linkshoar_shown model_panel_run_six(linkshoar_vram state, const uint16_t *serial, size_t serial_words, linkshoar_palette palette,
                                    const uint8_t *table, size_t table_bytes, uint32_t clocks, uint32_t blank, uint8_t *out, size_t out_bytes)
{
    return run(6, state, serial, serial_words, palette, table, table_bytes, clocks, blank, out, out_bytes);
}

/* ---- fills */

typedef struct {
    uint8_t *list;
    size_t room, bytes;
    uint32_t cycles;
} writer;

static void byte(writer *w, unsigned value)
{
    if (w->bytes < w->room)
        w->list[w->bytes] = (uint8_t)value;
    w->bytes++;
}

static void two(writer *w, unsigned value)
{
    byte(w, value / 256);
    byte(w, value % 256);
}

static void write_field(writer *w, unsigned tag, unsigned row, unsigned column, unsigned value, unsigned mask)
{
    byte(w, tag);
    two(w, 10);
    two(w, row);
    two(w, column);
    two(w, value);
    byte(w, 1);
    two(w, mask);
    byte(w, 3);
    w->cycles++;
}

static void plan(writer *w, uint32_t first_row, uint32_t end_row, uint32_t first_column, uint32_t end_column, unsigned mask, unsigned colour)
{
    size_t words = 0, blocks = 0;
    for (uint32_t row = first_row; row < end_row; row++)
        for (uint32_t column = first_column; column < end_column; column++) {
            words++;
            if (column == first_column || column % 4 == 0)
                blocks++;
        }
    if (mask == 0 || words == 0)
        return;
    if (words <= 1 + blocks) {
        for (uint32_t row = first_row; row < end_row; row++)
            for (uint32_t column = first_column; column < end_column; column++)
                write_field(w, 1, row, column, colour, mask);
        return;
    }
    byte(w, 3);
    two(w, 3);
    two(w, colour);
    byte(w, 3);
    w->cycles++;
    for (uint32_t row = first_row; row < end_row; row++)
        for (uint32_t block = 0; block < 128; block++) {
            unsigned columns = 0;
            for (uint32_t j = 0; j < 4; j++)
                if (4 * block + j >= first_column && 4 * block + j < end_column)
                    columns |= 0x1111u << j;
            if (columns)
                write_field(w, 2, row, 4 * block, columns, mask);
        }
}

linkshoar_filled model_fill(uint32_t rows, uint32_t first_row, uint32_t end_row, uint32_t first_column, uint32_t end_column, uint16_t mask,
                            uint16_t colour, uint32_t persistent, uint8_t *list, size_t length)
{
    linkshoar_filled r = {0, 0, 0};
    writer w = {list, 0, 0, 0};
    if (rows < 1 || rows > 512)
        r.number = 2;
    else if (first_row > end_row || first_column > end_column || end_column > 512 || end_row > rows)
        r.number = 12;
    else if (persistent)
        r.number = 13;
    if (r.number)
        return r;
    plan(&w, first_row, end_row, first_column, end_column, mask, colour);
    if (w.bytes > length) {
        r.number = 15;
        return r;
    }
    w.room = length;
    w.bytes = 0;
    w.cycles = 0;
    plan(&w, first_row, end_row, first_column, end_column, mask, colour);
    r.bytes = (uint32_t)w.bytes;
    r.cycles = w.cycles;
    return r;
}

/* ---- pages */

/* The number of the rectangle at the start of these bytes. */
static uint32_t rectangle_number(const uint8_t *b, size_t left, uint32_t rows)
{
    if (left < 15 || (b[0] != 8 && (FAULT != 53 || b[0] != 1))) /* a field of tag 1 accepted */
        return 4;
    if (b[2] != 12 || (b[1] != 0 && FAULT != 55)) /* the length's high byte ignored */
        return 4;
    return pair(b + 3) > pair(b + 5) || pair(b + 5) > rows || pair(b + 7) > pair(b + 9) || pair(b + 9) > 512 ? 12 : 0;
}

static void plan_rectangle(writer *w, const uint8_t *b)
{
    unsigned mask = pair(b + (FAULT == 52 ? 13 : 11)), colour = pair(b + (FAULT == 52 ? 11 : 13)); /* mask and colour exchanged */
    if (FAULT == 47) /* each list at the buffer's start */
        w->bytes = 0;
    if (FAULT == 48) /* the count of the last fill alone */
        w->cycles = 0;
    plan(w, pair(b + 3), pair(b + 5), pair(b + 7), pair(b + 9), mask, colour);
}

linkshoar_paged model_page(uint32_t rows, uint32_t persistent, const uint8_t *rectangles, size_t length, uint8_t *list, size_t room)
{
    linkshoar_paged r = {0, 0, 0, 0};
    writer w = {list, 0, 0, 0};
    if (rows < 1 || rows > 512)
        r.number = 2;
    else if (FAULT == 49 && persistent) /* 13 before 12 */
        r.number = 13;
    for (size_t at = 0; !r.number && at < length; at += 15) {
        uint32_t number = rectangle_number(rectangles + at, length - at, rows);
        if (FAULT == 51) /* the last bad field's place */
            for (size_t later = at; number && later < length; later += 15)
                r.place = rectangle_number(rectangles + later, length - later, rows) ? later : r.place;
        else if (number)
            r.place = at;
        r.number = number;
    }
    if (!r.number && persistent && (FAULT != 54 || length)) /* with no rectangle at all accepted */
        r.number = 13;
    if (r.number)
        return r;
    for (size_t at = 0; at < length; at += 15)
        plan_rectangle(&w, rectangles + at);
    if (w.bytes > room && FAULT != 50) {
        r.number = 15;
        return r;
    }
    w.room = room;
    w.bytes = 0;
    w.cycles = 0;
    for (size_t at = 0; at < length; at += 15)
        plan_rectangle(&w, rectangles + at);
    if (FAULT == 50 && w.bytes > room) { /* 15, but what there was room for is written */
        r.number = 15;
        return r;
    }
    r.bytes = w.bytes;
    r.cycles = w.cycles;
    return r;
}
