#include "tries.h"

#include "compare.h"
#include "model.h"

#include <string.h>

/* As `colours_c` has them: a member added in one place alone is found here. */
_Static_assert(sizeof(linkshoar_levels) == 3 && sizeof(linkshoar_colours) == 11 && sizeof(linkshoar_inputs) == 12, "structs");
_Static_assert(sizeof(linkshoar_coloured) == 16 && sizeof(linkshoar_emitted) == 20, "structs");

enum {
    WORDS = LINKSHOAR_COLOURS_WORDS,
    SYNC = LINKSHOAR_LEVEL_SYNC,
    BLANK = LINKSHOAR_LEVEL_BLANK,
    BLACK = LINKSHOAR_LEVEL_BLACK,
    WHITE = LINKSHOAR_LEVEL_WHITE
};

static int levels_same(linkshoar_levels a, linkshoar_levels b)
{
    return a.red == b.red && a.green == b.green && a.blue == b.blue;
}

static int colours_same(linkshoar_colours a, linkshoar_colours b)
{
    return a.waiting == b.waiting && a.low == b.low && levels_same(a.first, b.first) && levels_same(a.second, b.second) &&
           levels_same(a.third, b.third);
}

/* ---- one call of the library and one of the second implementation. The table lies where other tests have the serial register. */

static linkshoar_colours same_coloured(const char *what, linkshoar_coloured a, linkshoar_coloured b, size_t words)
{
    count(b.number);
    if (!colours_same(a.state, b.state) || a.number != b.number)
        differ(what);
    same_words(what, serial_a, serial_b, words);
    return b.state;
}

static linkshoar_colours both_write(linkshoar_colours state, size_t words, uint32_t address, uint32_t data)
{
    linkshoar_coloured a = linkshoar_colours_write(state, words_of(serial_a, words), words, address, data);
    linkshoar_coloured b = model_colours_write(state, words_of(serial_b, words), words, address, data);
    return same_coloured("linkshoar_colours_write", a, b, words);
}

static linkshoar_colours both_write_low(linkshoar_colours state, uint8_t low)
{
    linkshoar_coloured a = linkshoar_colours_write_low(state, low), b = model_colours_write_low(state, low);
    return same_coloured("linkshoar_colours_write_low", a, b, 0);
}

static linkshoar_colours both_write_high(linkshoar_colours state, size_t words, uint32_t address, uint8_t high)
{
    linkshoar_coloured a = linkshoar_colours_write_high(state, words_of(serial_a, words), words, address, high);
    linkshoar_coloured b = model_colours_write_high(state, words_of(serial_b, words), words, address, high);
    return same_coloured("linkshoar_colours_write_high", a, b, words);
}

static void same_byte(const char *what, linkshoar_byte a, linkshoar_byte b, size_t words)
{
    count(b.number);
    if (a.number != b.number || a.byte != b.byte)
        differ(what);
    same_words(what, serial_a, serial_b, words);
}

static void both_reads(size_t words, uint32_t address)
{
    const uint16_t *ours = words_of(serial_a, words), *theirs = words_of(serial_b, words);
    linkshoar_word a = linkshoar_colours_read(ours, words, address), b = model_colours_read(theirs, words, address);
    count(b.number);
    if (a.number != b.number || a.word != b.word)
        differ("linkshoar_colours_read");
    same_words("the table of linkshoar_colours_read", serial_a, serial_b, words);
    same_byte("linkshoar_colours_read_low", linkshoar_colours_read_low(ours, words, address),
              model_colours_read_low(theirs, words, address), words);
    same_byte("linkshoar_colours_read_high", linkshoar_colours_read_high(ours, words, address),
              model_colours_read_high(theirs, words, address), words);
}

static linkshoar_colours both_pixel(linkshoar_colours state, size_t words, linkshoar_inputs inputs)
{
    linkshoar_emitted a = linkshoar_colours_pixel(state, words_of(serial_a, words), words, inputs);
    linkshoar_emitted b = model_colours_pixel(state, words_of(serial_b, words), words, inputs);
    count(b.number);
    if (!colours_same(a.state, b.state) || !levels_same(a.levels, b.levels) || a.number != b.number)
        differ("linkshoar_colours_pixel");
    same_words("the table of linkshoar_colours_pixel", serial_a, serial_b, words);
    return b.state;
}

/* ---- inputs at random */

/* Yes one time in n, as any number that is not 0. */
static uint8_t some_yes(uint32_t n)
{
    return (uint8_t)(!chance(n) ? 0 : chance(2) ? 1 : 1 + below(255));
}

static linkshoar_inputs some_inputs(uint32_t address)
{
    linkshoar_inputs i = {address, some_yes(6), some_yes(6), some_yes(6), some_yes(3), some_yes(2), some_yes(2), some_yes(2), some_yes(2)};
    return i;
}

static linkshoar_levels some_levels(void)
{
    switch (below(4)) {
    case 0: return (linkshoar_levels){BLANK, SYNC, BLANK};
    case 1: return (linkshoar_levels){BLANK, BLANK, BLANK};
    case 2: return (linkshoar_levels){(uint8_t)(BLACK + below(2)), (uint8_t)(BLACK + below(2)), (uint8_t)(BLACK + below(2))};
    default: return (linkshoar_levels){(uint8_t)below(16), (uint8_t)below(16), (uint8_t)below(16)};
    }
}

static linkshoar_colours some_colours(void)
{
    linkshoar_colours s = {(uint8_t)below(2), 0, some_levels(), some_levels(), some_levels()};
    s.low = (uint8_t)(s.waiting ? any() : 0);
    return s;
}

/* Levels that mostly no pixel makes together: one of them another, or at random. */
static linkshoar_levels odd_levels(linkshoar_levels l)
{
    uint8_t level = (uint8_t)(chance(4) ? any() : chance(4) ? WHITE + 1 : below(WHITE + 2));
    switch (below(4)) {
    case 0: l.red = level; break;
    case 1: l.green = level; break;
    case 2: l.blue = level; break;
    default: l.red = l.green = l.blue = level; break;
    }
    return l;
}

/* A state that the rules mostly exclude. */
static linkshoar_colours odd_colours(linkshoar_colours s)
{
    switch (below(5)) {
    case 0: s.waiting = (uint8_t)(chance(2) ? 2 : any()); break;
    case 1: s.waiting = 0, s.low = (uint8_t)any(); break;
    case 2: s.first = odd_levels(s.first); break;
    case 3: s.second = odd_levels(s.second); break;
    default: s.third = odd_levels(s.third); break;
    }
    return s;
}

static size_t some_length(void)
{
    return chance(20) ? (chance(2) ? WORDS - 1 + 2 * below(2) : below(MOST_SERIAL)) : WORDS;
}

static uint32_t some_address(void)
{
    return chance(3) ? about(WORDS) : below(WORDS);
}

/* ---- sessions */

static linkshoar_colours some_call(linkshoar_colours s)
{
    size_t words = some_length();
    uint32_t address = some_address();
    switch (below(10)) {
    case 0: return both_write(s, words, address, about(8192));
    case 1: case 2: return both_write_low(s, (uint8_t)any());
    case 3: case 4: return both_write_high(s, words, address, (uint8_t)any());
    case 5: both_reads(words, address); return s;
    default: return both_pixel(s, words, some_inputs(address));
    }
}

/* A session goes on from the state that calls leave; calls on odd states stand between. */
void try_colours(void)
{
    if (!colours_same(linkshoar_colours_fresh(), model_colours_fresh()))
        differ("linkshoar_colours_fresh");
    linkshoar_colours s = chance(4) ? model_colours_fresh() : some_colours();
    some_words(serial_a, serial_b, WORDS);
    for (uint32_t n = below(60); n; n--)
        if (chance(6))
            some_call(odd_colours(s));
        else
            s = some_call(s);
}

/* ---- the library alone */

/* What a pixel asks for where its address has this word. */
static linkshoar_levels asked(linkshoar_inputs i, uint16_t word)
{
    unsigned colour = i.blink && word & 4096 ? 0xFFFu - (word & 0xFFF) : word & 0xFFF;
    if (!i.horizontal_sync != !i.vertical_sync)
        return (linkshoar_levels){BLANK, SYNC, BLANK};
    if (i.horizontal_sync || i.blank)
        return (linkshoar_levels){BLANK, BLANK, BLANK};
    if (i.overlay)
        return (linkshoar_levels){i.red_on ? WHITE : BLACK, i.green_on ? WHITE : BLACK, i.blue_on ? WHITE : BLACK};
    return (linkshoar_levels){(uint8_t)(colour % 16), (uint8_t)(colour / 16 % 16), (uint8_t)(colour / 256)};
}

/* A write that must be done. */
static linkshoar_colours written(linkshoar_coloured r)
{
    count(r.number);
    if (r.number != LINKSHOAR_DONE)
        differ("a write to the Am8159's table");
    return r.state;
}

static linkshoar_colours write_parts(linkshoar_colours s, uint16_t *table, uint32_t address, uint32_t data, uint32_t above)
{
    s = written(linkshoar_colours_write_low(s, (uint8_t)data));
    return written(linkshoar_colours_write_high(s, table, WORDS, address, (uint8_t)(data >> 8 | above << 5)));
}

/* One word anew: in place, in 16 bits or in 8. */
static linkshoar_colours rewrite(linkshoar_colours s, uint16_t *table, uint32_t address)
{
    uint32_t data = below(8192);
    switch (below(3)) {
    case 0: table[address] = (uint16_t)any(); return s;
    case 1: s = written(linkshoar_colours_write(s, table, WORDS, address, data)); break;
    default: s = write_parts(s, table, address, data, below(8)); break;
    }
    if (table[address] != data)
        differ("a word written to the Am8159's table");
    return s;
}

/* A pixel that is refused moves nothing and answers zeros. */
static void stands(linkshoar_colours s, const uint16_t *table)
{
    linkshoar_emitted e = linkshoar_colours_pixel(s, table, WORDS, some_inputs(WORDS + below(200)));
    count(e.number);
    if (e.number != LINKSHOAR_ADDRESS_OR_DATA_OVER || !colours_same(e.state, s) || !levels_same(e.levels, (linkshoar_levels){0, 0, 0}))
        differ("a pixel that is refused");
}

/* Output k is what the inputs of pixel k - 3 asked for with the table as they went in; the first three are at blank. */
void try_pipe(void)
{
    enum { DELAY = 3, MOST = 40 };
    linkshoar_levels due[MOST + DELAY];
    uint16_t table[WORDS];
    linkshoar_colours s = linkshoar_colours_fresh();
    memset(due, BLANK, DELAY * sizeof *due);
    for (int i = 0; i < WORDS; i++)
        table[i] = (uint16_t)any();
    for (uint32_t k = 0, pixels = below(MOST); k < pixels; k++) {
        linkshoar_inputs inputs = some_inputs(chance(2) ? below(3) : below(WORDS));
        due[k + DELAY] = asked(inputs, table[inputs.address]);
        linkshoar_emitted e = linkshoar_colours_pixel(s, table, WORDS, inputs);
        count(e.number);
        if (e.number || !levels_same(e.levels, due[k]))
            differ("the output of a pixel three clocks later");
        s = e.state;
        if (chance(2)) /* often a word that a pixel under way has read */
            s = rewrite(s, table, chance(2) ? inputs.address : below(WORDS));
        if (chance(8))
            stands(s, table);
    }
}

/* ---- the sheet's function table: a row is one gun's, whichever it is */

enum { X = -1, STEPS = 100, INVERSE, COMPOSITE };

/* The columns of Table 2: the gun's ON, S1, S0, BLANK, HSYNC, VSYNC, BLINK and CD12; colour data; output. S1 is HIGH for every pixel: LOW
 * is an access to the table. S0 is LOW for overlay. */
static const struct {
    char inputs[9];
    int data, output;
} rows[] = {
    {"HHLLLLXX", X, WHITE},       /* peak white */
    {"XHHLLLLX", 15, 15},         /* reference white */
    {"XHHLLLXL", 15, 15},
    {"XHHLLLLX", X, STEPS},       /* 15 equal steps */
    {"XHHLLLXL", X, STEPS},
    {"XHHLLLXL", 0, 0},           /* reference black */
    {"XHHLLLLX", 0, 0},
    {"XHHLLLHH", 0, 15},          /* reference white */
    {"XHHLLLHH", X, INVERSE},     /* 15 equal inverse steps */
    {"XHHLLLHH", 15, 0},          /* reference black */
    {"LHLLLLXX", X, BLACK},       /* reference black, by overlay */
    {"XXXHLLXX", X, BLANK},       /* blanking */
    {"XXXXHHXX", X, BLANK},
    {"XXXXHLXX", X, COMPOSITE},   /* sync shows on green; red and blue have blank level */
    {"XXXXLHXX", X, COMPOSITE}
};

static int level_of(linkshoar_levels l, unsigned gun)
{
    return gun == 0 ? l.red : gun == 1 ? l.green : l.blue;
}

static int expected(int output, unsigned gun, unsigned data)
{
    switch (output) {
    case STEPS: return (int)data;
    case INVERSE: return 15 - (int)data;
    case COMPOSITE: return gun == 1 ? SYNC : BLANK;
    default: return output;
    }
}

/* Whether the row is for these inputs, a bit for each of its columns, the first the lowest. */
static int is_for(const char *columns, unsigned high)
{
    for (unsigned c = 0; columns[c]; c++)
        if (columns[c] == (high >> c & 1 ? 'L' : 'H'))
            return 0;
    return 1;
}

/* One gun's level, three clocks after these inputs; the other guns are on or off, and have colour data, at random. */
static int shown(unsigned gun, unsigned high, unsigned data)
{
    uint16_t table[WORDS];
    uint8_t on[] = {some_yes(2), some_yes(2), some_yes(2)};
    uint32_t address = below(WORDS);
    on[gun] = high & 1;
    for (int i = 0; i < WORDS; i++)
        table[i] = (uint16_t)any();
    table[address] = (uint16_t)((any() & 0xEFFF & ~(15u << 4 * gun)) | data << 4 * gun | (high >> 7 & 1) << 12);
    linkshoar_inputs inputs = {address, high >> 4 & 1, high >> 5 & 1, high >> 3 & 1, !(high >> 2 & 1), on[0], on[1], on[2], high >> 6 & 1};
    linkshoar_emitted e = linkshoar_colours_pixel(linkshoar_colours_fresh(), table, WORDS, inputs);
    for (int clocks = 0; clocks < 3; clocks++)
        e = linkshoar_colours_pixel(e.state, table, WORDS, some_inputs(below(WORDS)));
    return e.number ? -1 : level_of(e.levels, gun);
}

/* Every row, with all that it leaves open, for each gun. Not counted: the random calls are not to be fewer. */
static void table_two(void)
{
    for (size_t r = 0; r < sizeof rows / sizeof *rows; r++)
        for (unsigned n = 0; n < 256 * 16 * 3; n++) {
            unsigned high = n % 256, data = n / 256 % 16, gun = n / 4096;
            if (!(high & 2) || !is_for(rows[r].inputs, high) || (rows[r].data != X && (unsigned)rows[r].data != data))
                continue;
            if (shown(gun, high, data) != expected(rows[r].output, gun, data))
                differ("a row of the Am8159's function table");
        }
}

/* ---- edges */

/* The word in both widths. */
static void reads_back(const uint16_t *table, uint32_t address, unsigned data)
{
    linkshoar_word whole = linkshoar_colours_read(table, WORDS, address);
    linkshoar_byte low = linkshoar_colours_read_low(table, WORDS, address), high = linkshoar_colours_read_high(table, WORDS, address);
    count(whole.number), count(low.number), count(high.number);
    if (whole.number || low.number || high.number || whole.word != data || low.byte != data % 256 || high.byte != data / 256)
        differ("a word read back from the Am8159's table");
}

/* Every address written in 16 bits, then in 8, and read back; before that, with bits above the thirteen. */
static void every_address(void)
{
    uint16_t table[WORDS], copy[WORDS];
    linkshoar_colours s = linkshoar_colours_fresh();
    for (uint32_t i = 0; i < WORDS; i++)
        table[i] = copy[i] = (uint16_t)(0xFFFF - 127 * i);
    for (uint32_t n = 0; n < 3 * WORDS; n++) {
        uint32_t address = n % WORDS, data = n < WORDS ? copy[address] % 8192u : below(8192);
        if (n >= 2 * WORDS)
            s = write_parts(s, table, address, data, 7);
        else if (n >= WORDS)
            s = written(linkshoar_colours_write(s, table, WORDS, address, data));
        if (n >= WORDS)
            copy[address] = (uint16_t)data;
        reads_back(table, address, data);
        if (memcmp(table, copy, sizeof table) || !colours_same(s, linkshoar_colours_fresh()))
            differ("the Am8159's table after a write");
    }
}

/* Lengths, addresses and data about the right ones, on a state where nothing waits, where a low part waits, and that is excluded. */
static void every_pair(void)
{
    static const size_t lengths[] = {0, 1, WORDS - 1, WORDS, WORDS + 1, 256};
    static const uint32_t addresses[] = {0, WORDS - 1, WORDS, 256, 65536, UINT32_MAX}, data[] = {0, 8191, 8192, 65535, 65536, UINT32_MAX};
    linkshoar_colours fresh = model_colours_fresh(), waiting = fresh, excluded = fresh;
    waiting.waiting = 1, waiting.low = 0xA5;
    excluded.low = 1;
    const linkshoar_colours states[] = {fresh, waiting, excluded};
    for (unsigned n = 0; n < 6 * 6 * 3; n++) {
        size_t words = lengths[n % 6];
        uint32_t address = addresses[n / 6 % 6];
        linkshoar_colours s = states[n / 36];
        for (unsigned d = 0; d < 6; d++)
            both_write(s, words, address, data[d]);
        both_write_high(s, words, address, 0xFF), both_write_high(s, words, address, 0xE0);
        both_pixel(s, words, some_inputs(address));
        both_reads(words, address);
    }
}

/* Levels of every kind together, in each of the three outputs. */
static void every_levels(void)
{
    static const uint8_t levels[] = {0, 15, SYNC, BLANK, BLACK, WHITE, WHITE + 1, 255};
    for (unsigned n = 0; n < 8 * 8 * 8 * 3; n++) {
        linkshoar_levels l = {levels[n % 8], levels[n / 8 % 8], levels[n / 64 % 8]};
        linkshoar_colours s = model_colours_fresh();
        *(n / 512 == 0 ? &s.first : n / 512 == 1 ? &s.second : &s.third) = l;
        both_write_low(s, (uint8_t)n);
    }
}

void colours_edges(void)
{
    table_two();
    every_address();
    every_pair();
    every_levels();
}
