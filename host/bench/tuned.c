/* Document 01, as the change requests have amended it, in C that is written for speed: the rival beside plain.c. A field is judged once, before
 * anything runs, and its body is read by whole loads; a block's four words are one number, and so are a palette's registers. It is for a
 * processor that loads and stores at any address, lowest byte first. */
#include "as.h"

#include <string.h>

/* What is read and answered as whole numbers is laid out so. */
_Static_assert(sizeof(linkshoar_vram) == 10 && offsetof(linkshoar_vram, stop) == 9 && sizeof(linkshoar_clocked) == 16, "structs");
_Static_assert(sizeof(linkshoar_palette) == 6 && sizeof(linkshoar_accessed) == 12, "structs");

/* ---- whole loads and stores: a list's bytes as one number, the first byte highest */

static unsigned two(const uint8_t *at)
{
    uint16_t n;
    memcpy(&n, at, 2);
    return __builtin_bswap16(n);
}

static uint32_t four(const uint8_t *at)
{
    uint32_t n;
    memcpy(&n, at, 4);
    return __builtin_bswap32(n);
}

static uint64_t eight(const uint8_t *at)
{
    uint64_t n;
    memcpy(&n, at, 8);
    return __builtin_bswap64(n);
}

static void put_eight(uint8_t *at, uint64_t n)
{
    n = __builtin_bswap64(n);
    memcpy(at, &n, 8);
}

/* ---- lists */

/* 16, 32, 64 and 128: one bit alone, and none below 16. */
static int partition_bad(unsigned length)
{
    return length < 16 || (length & (length - 1));
}

static int vram_bad(linkshoar_vram s)
{
    uint64_t first;
    memcpy(&first, &s, 8);
    if ((first & 0xFE00FEFE00000000) || partition_bad(s.stop)) /* waiting, loaded or persistent over 1, or no partition's length */
        return 1;
    return s.waiting ? !s.loaded || (s.tap ^ s.pointer) < 128 : s.tap != 0;
}

enum { LONGEST = 13 }; /* bytes of a field */

#define HEADER(tag, length) ((tag) << 16 | (length))

static inline uint32_t judge_write(const uint8_t *f, uint32_t rows)
{
    uint64_t b = eight(f + 5); /* column, data, masking, mask, strobes */
    if (two(f + 3) >= rows)
        return 5;
    if (b >> 48 > 511)
        return 6;
    if ((uint8_t)(b - 1) > 2)
        return 7;
    return (uint8_t)(b >> 24) != 1 && (uint32_t)b >> (FAULT == 2 ? 24 : 8) ? 8 : 0;
}

/* What refuses the field at f, of which LONGEST bytes may be read, and how many it has; *open is the last mask load, until a reset refresh
 * comes. */
static inline uint32_t judge(const uint8_t *f, uint32_t rows, int *loaded, const uint8_t **open, size_t *bytes)
{
    uint32_t header = four(f) >> 8, b;
    if (header == HEADER(1, 10) || header == HEADER(2, 10)) {
        *bytes = 13;
        return judge_write(f, rows);
    }
    switch (header) {
    case HEADER(4, 3):
        *open = FAULT == 13 && *open ? *open : f;
        /* fall through */
    case HEADER(3, 3):
        *bytes = 6;
        return (uint8_t)(f[5] - 1) > 2 ? 7 : 0;
    case HEADER(5, 0):
        *bytes = 3, *open = NULL;
        return 0;
    case HEADER(6, 4):
        *bytes = 7, *loaded = 1;
        b = four(f + 3); /* row, half, tap */
        return b >> 16 >= rows ? 5 : (uint8_t)(b >> 8) > 1 ? 9 : 0;
    case HEADER(7, 4):
        *bytes = 7;
        b = four(f + 3);
        return b >> 16 >= rows ? 5 : (b & 0xFE80) ? 9 : *loaded ? 0 : 10;
    case HEADER(9, 1):
        *bytes = 4;
        return partition_bad(f[3]) ? 19 : 0;
    default:
        return 4;
    }
}

/* What refuses a list, and where. Before late LONGEST bytes are left and no field is cut short; the rest is judged in a copy with zeros
 * behind it. */
static uint32_t check(const uint8_t *list, size_t length, uint32_t rows, int loaded, uint64_t *place)
{
    const uint8_t *f = list, *end = list + length, *late = length < LONGEST ? list : end - LONGEST + 1, *open = NULL;
    size_t bytes;
    for (; f < late; f += bytes) {
        uint32_t number = judge(f, rows, &loaded, &open, &bytes);
        if (number) {
            *place = (uint64_t)(f - list);
            return number;
        }
    }
    uint8_t rest[2 * LONGEST] = {0};
    const uint8_t *early = open;
    size_t left = (size_t)(end - f);
    if (left)
        memcpy(rest, f, left);
    for (size_t k = 0; k < left; k += bytes) {
        uint32_t number = judge(rest + k, rows, &loaded, &open, &bytes);
        if (number != 4 && bytes > left - k)
            number = 4;
        if (number) {
            *place = (uint64_t)(f - list) + k;
            return number;
        }
    }
    if (!open || FAULT == 12)
        return 0;
    *place = (uint64_t)(open == early ? open - list : f - list + (open - rest));
    return 20;
}

static const uint16_t covered[4] = {0, 0x00FF, 0xFF00, 0xFFFF}; /* by the strobes */

static uint16_t merge(unsigned old, unsigned new, unsigned allow)
{
    return (uint16_t)(old ^ ((old ^ new) & allow));
}

static const uint64_t EACH = 0x0001000100010001; /* times a word: the word four times */

/* A block's four words: each column's four bits of the column mask, one to a quad, become that word's quads. */
static void write_block(uint16_t *block, uint64_t colours, uint64_t columns, uint64_t allow)
{
    uint64_t quads = (columns | columns << 15 | columns << 30 | columns << 45) & 0x1111111111111111, old;
    memcpy(&old, block, 8);
    old ^= (old ^ colours) & allow * EACH & quads * 15;
    memcpy(block, &old, 8);
}

linkshoar_ran linkshoar_list_run(linkshoar_vram state, uint16_t *memory, size_t words, uint16_t *serial, size_t serial_words,
                                 const uint8_t *list, size_t length)
{
    linkshoar_ran r = {state, 0, 0};
    if (vram_bad(state))
        r.number = 1;
    else if (words < 512 || words > 262144 || words % 512)
        r.number = 2;
    else if (serial_words != 256)
        r.number = 3;
    else if (length)
        r.number = check(list, length, (uint32_t)(words / 512), state.loaded, &r.place);
    if (r.number || !length)
        return r;
    linkshoar_vram s = state;
    uint64_t colours = s.colour * EACH; /* follows the colour register */
    for (const uint8_t *f = list, *end = list + length; f != end;) {
        if (f[0] <= 2) {
            uint64_t b = eight(f + 5);
            uint16_t *row = memory + 512 * two(f + 3);
            unsigned column = (unsigned)(b >> 48), value = (uint16_t)(b >> 32), allow = covered[b & 3];
            if (b >> 24 & 1)
                allow &= s.persistent ? s.mask : (unsigned)(b >> 8);
            if (f[0] == 1)
                row[column] = merge(row[column], value, allow);
            else
                write_block(row + (column & (FAULT == 1 ? ~0u : ~3u)), colours, value, allow);
            f += 13;
        } else if (f[0] <= 4) {
            unsigned value = two(f + 3), allow = covered[f[5]];
            if (f[0] == 3)
                s.colour = merge(s.colour, value, allow), colours = s.colour * EACH;
            else
                s.mask = merge(s.mask, value, allow), s.persistent = 1;
            f += 6;
        } else if (f[0] == 5) {
            s.persistent = 0, s.stop = FAULT == 10 ? s.stop : 128;
            f += 3;
        } else if (f[0] == 9) {
            s.stop = f[3];
            f += 4;
        } else {
            uint32_t b = four(f + 3);
            const uint16_t *half = memory + 512 * (b >> 16) + 256 * (b >> 8 & 1);
            if (f[0] == 6) {
                memcpy(serial, half, 512);
                s.loaded = 1, s.pointer = (uint8_t)b, s.waiting = 0, s.tap = 0;
            } else {
                unsigned other = ~s.pointer & 128;
                memcpy(serial + other, half + other, 256);
                s.waiting = 1, s.tap = (uint8_t)(other + b);
            }
            f += 7;
        }
    }
    r.state = s;
    return r;
}

/* ---- marks of rows */

linkshoar_ran linkshoar_list_run_marked(linkshoar_vram state, uint16_t *memory, size_t words, uint16_t *serial, size_t serial_words,
                                        uint8_t *marks, size_t marks_bytes, const uint8_t *list, size_t length)
{
    if (marks_bytes != 64 && !vram_bad(state) && words >= 512 && words <= 262144 && words % 512 == 0 && serial_words == 256) {
        linkshoar_ran refused = {state, 18, 0};
        return refused;
    }
    linkshoar_ran r = linkshoar_list_run(state, memory, words, serial, serial_words, list, length);
    size_t end = r.number ? FAULT == 17 && marks_bytes == 64 ? r.place : 0 : length;
    for (const uint8_t *f = list, *past = end ? list + end : list; f != past; f += 3 + f[2])
        if (f[0] <= 2 && (FAULT != 16 || f[0] == 2)) {
            unsigned row = two(f + 3);
            marks[row / 8] |= (uint8_t)(1u << row % 8);
        }
    return r;
}

uint32_t linkshoar_marks_clear(uint8_t *marks, size_t marks_bytes)
{
    if (marks_bytes != 64)
        return 18;
    memset(marks, 0, 64);
    return 0;
}

/* Eight bytes at a time: the lowest bit that is set. */
linkshoar_marked linkshoar_marks_next(const uint8_t *marks, size_t marks_bytes, uint32_t start)
{
    linkshoar_marked r = {marks_bytes != 64 ? 18 : start > 511 ? 5 : 0, 0, 0};
    if (r.number)
        return r;
    start += FAULT == 18;
    for (uint32_t k = start / 64, skipped = start % 64; k < 8; k++, skipped = 0) {
        uint64_t bits;
        memcpy(&bits, marks + 8 * k, 8);
        bits &= ~UINT64_C(0) << skipped;
        if (bits) {
            r.found = 1, r.row = 64 * k + (uint32_t)__builtin_ctzll(bits);
            return r;
        }
    }
    return r;
}

/* ---- fills */

/* A field by two stores: the first eight bytes, up to the value's high byte, over the start of the last eight. */
static inline uint8_t *put(uint8_t *at, uint64_t first, uint64_t last)
{
    put_eight(at + 5, last);
    put_eight(at, first);
    return at + 13;
}

#define INLINE static inline __attribute__((always_inline))

/* What a rectangle that is not refused comes to. */
typedef struct {
    uint32_t bytes, cycles;
    int by_words;
} shape;

INLINE shape shape_of(uint32_t first_row, uint32_t end_row, uint32_t first_column, uint32_t end_column, uint16_t mask)
{
    shape s = {0, 0, 0};
    uint32_t height = end_row - first_row, width = end_column - first_column, first = first_column & ~3u, last = (end_column - 1) & ~3u;
    if (!mask || !height || !width)
        return s;
    uint32_t words = height * width, blocks = height * ((last - first) / 4 + 1);
    s.by_words = words <= blocks + (FAULT != 7);
    s.bytes = s.by_words ? 13 * words : 6 + 13 * blocks;
    s.cycles = s.by_words ? words : 1 + blocks;
    return s;
}

/* The list of a shape that is not empty. */
INLINE void write_list(shape s, uint32_t first_row, uint32_t end_row, uint32_t first_column, uint32_t end_column, uint16_t mask,
                       uint16_t colour, uint8_t *list)
{
    uint32_t height = end_row - first_row, first = first_column & ~3u, last = (end_column - 1) & ~3u;
    uint64_t tail = 1u << 24 | (uint32_t)mask << 8 | 3; /* masking, mask, strobes: the end of the last eight bytes */
    uint64_t row = (uint64_t)HEADER(s.by_words ? 1 : 2, 10) << 40 | (uint64_t)first_row << 24, past = row + ((uint64_t)height << 24);
    if (s.by_words) {
        uint64_t end = end_column << 8 | colour >> 8, value = tail | (uint64_t)colour << 32;
        for (; row != past; row += 1u << 24)
            for (uint64_t column = first_column << 8 | colour >> 8; column != end; column += 1u << 8)
                list = put(list, row | column, value);
    } else {
        uint32_t left = 0x1111u * (15u << first_column % 4 & 15), right = 0x1111u * (15u >> (3 - (end_column - 1) % 4));
        uint64_t whole = tail | (uint64_t)0xFFFF << 32, end = last << 8 | 0xFF;
        const uint8_t load[6] = {3, 0, 3, (uint8_t)(colour >> 8), (uint8_t)colour, 3};
        memcpy(list, load, 6);
        list += 6;
        if (first == last)
            left &= right;
        for (; row != past; row += 1u << 24) {
            list = put(list, row | first << 8 | left >> 8, tail | (uint64_t)left << 32);
            if (first == last)
                continue;
            for (uint64_t block = row | (first + 4) << 8 | 0xFF; block != (row | end); block += 4u << 8)
                list = put(list, block, whole);
            list = put(list, row | last << 8 | right >> 8, tail | (uint64_t)right << 32);
        }
    }
}

linkshoar_filled linkshoar_fill(uint32_t rows, uint32_t first_row, uint32_t end_row, uint32_t first_column, uint32_t end_column,
                                uint16_t mask, uint16_t colour, uint32_t persistent, uint8_t *list, size_t length)
{
    linkshoar_filled r = {0, 0, 0};
    if (rows - 1 > 511)
        r.number = 2;
    else if (first_row > end_row || first_column > end_column || end_column > 512 || end_row > rows)
        r.number = 12;
    else if (persistent)
        r.number = 13;
    if (r.number)
        return r;
    shape s = shape_of(first_row, end_row, first_column, end_column, mask);
    if (!s.cycles)
        return r;
    if (length < s.bytes) {
        r.number = 15;
        return r;
    }
    write_list(s, first_row, end_row, first_column, end_column, mask, colour, list);
    r.bytes = s.bytes;
    r.cycles = s.cycles;
    return r;
}

/* ---- pages */

/* A rectangle by whole loads: the rows and the columns as one number, the mask and the colour as another. */
typedef struct {
    uint32_t first_row, end_row, first_column, end_column;
    uint16_t mask, colour;
} rectangle;

INLINE rectangle rectangle_of(const uint8_t *b)
{
    uint64_t sides = eight(b + 3);
    uint32_t paint = four(b + 11);
    uint16_t mask = (uint16_t)(paint >> 16), colour = (uint16_t)paint;
    rectangle q = {(uint32_t)(sides >> 48), (uint16_t)(sides >> 32), (uint16_t)(sides >> 16), (uint16_t)sides, FAULT == 15 ? colour : mask,
                   FAULT == 15 ? mask : colour};
    return q;
}

linkshoar_paged linkshoar_page(uint32_t rows, uint32_t persistent, const uint8_t *rectangles, size_t length, uint8_t *list, size_t room)
{
    linkshoar_paged r = {0, 0, 0, 0};
    uint64_t bytes = 0;
    if (rows - 1 > 511) {
        r.number = 2;
        return r;
    }
    for (size_t at = 0; at < length; at += 15) {
        const uint8_t *b = rectangles + at;
        if (length - at < 15 || four(b) >> 8 != HEADER(8, 12))
            r.number = 4;
        else {
            rectangle q = rectangle_of(b);
            if (q.first_row > q.end_row || q.first_column > q.end_column || q.end_column > 512 || q.end_row > rows)
                r.number = 12;
            bytes += shape_of(q.first_row, q.end_row, q.first_column, q.end_column, q.mask).bytes;
        }
        if (r.number) {
            r.place = at;
            return r;
        }
    }
    if (persistent || (bytes > room && FAULT != 14)) {
        r.number = persistent ? 13 : 15;
        return r;
    }
    bytes = 0;
    for (size_t at = 0; at < length; at += 15) {
        rectangle q = rectangle_of(rectangles + at);
        shape s = shape_of(q.first_row, q.end_row, q.first_column, q.end_column, q.mask);
        if (FAULT == 14 && bytes + s.bytes > room) {
            r.number = 15;
            r.cycles = 0;
            return r;
        }
        if (s.cycles)
            write_list(s, q.first_row, q.end_row, q.first_column, q.end_column, q.mask, q.colour, list + bytes);
        bytes += s.bytes;
        r.cycles += s.cycles;
    }
    r.bytes = bytes;
    return r;
}

/* ---- clocks */

static linkshoar_vram clocked(linkshoar_vram s)
{
    if (s.waiting && !((s.pointer + 1) & ((FAULT == 11 ? 128 : s.stop) - 1)))
        s.pointer = s.tap, s.waiting = FAULT == 3, s.tap = 0;
    else
        s.pointer++;
    return s;
}

/* At most a register's words. Each pixel but the last is stored with a fourth byte, which the next one stores over. */
static void show(uint8_t *out, const uint16_t *word, uint32_t n, uint16_t mask, const uint8_t *shades)
{
    uint16_t entry[256];
    for (uint32_t i = 0; i < n; i++) {
        int16_t high = (int16_t)word[i] >> 8; /* gcc keeps bits and sign: 0 stays 0, 255 is all ones */
        uint16_t folded = (uint16_t)(word[i] ^ high); /* under these two the low byte as it is, or inverted; else over 255 */
        entry[i] = (uint16_t)((folded < 256 && (FAULT != 8 || high == 0) ? folded : high) & (FAULT == 4 ? 255 : mask));
    }
    uint32_t i = 0;
    for (; i + 4 < n; i += 4, out += 12) {
        memcpy(out, shades + 3 * entry[i], 4);
        memcpy(out + 3, shades + 3 * entry[i + 1], 4);
        memcpy(out + 6, shades + 3 * entry[i + 2], 4);
        memcpy(out + 9, shades + 3 * entry[i + 3], 4);
    }
    for (; i + 1 < n; i++, out += 3)
        memcpy(out, shades + 3 * entry[i], 4);
    memcpy(out, shades + 3 * entry[i], 3);
}

static uint8_t part(unsigned byte, int six)
{
    unsigned v = byte & 63;
    return (uint8_t)(six ? v : 4 * v + (FAULT == 9 ? 0 : v / 16));
}

static linkshoar_shown run(int six, linkshoar_vram state, const uint16_t *serial, size_t serial_words, linkshoar_palette palette,
                           const uint8_t *table, size_t table_bytes, uint32_t clocks, uint32_t blank, uint8_t *out, size_t out_bytes)
{
    linkshoar_shown r = {state, 0};
    if (vram_bad(state) || palette.phase > 2 || (palette.red | palette.green | palette.blue) > 63)
        r.number = 1;
    else if (serial_words != 256 || table_bytes != 768)
        r.number = 3;
    else if (clocks && !state.loaded)
        r.number = 10;
    else if (clocks > 512)
        r.number = 14;
    else if (out_bytes < 3 * (size_t)clocks)
        r.number = 15;
    if (r.number || !clocks)
        return r;
    uint8_t shades[768 + 1];
    if (blank)
        memset(out, 0, 3 * (size_t)clocks);
    else
        for (unsigned i = 0; i < 768; i++)
            shades[i] = part(table[i], six);
    shades[768] = 0;
    for (uint32_t left = clocks; left;) {
        uint32_t n = r.state.waiting ? state.stop - (r.state.pointer & (state.stop - 1u)) : 256u - r.state.pointer; /* with no jump in it */
        n = n < left ? n : left;
        if (!blank)
            show(out, serial + r.state.pointer, n, palette.mask, shades);
        out += 3 * n;
        r.state.pointer = (uint8_t)(r.state.pointer + n - 1);
        r.state = clocked(r.state);
        left -= n;
    }
    return r;
}

linkshoar_shown linkshoar_panel_run(linkshoar_vram state, const uint16_t *serial, size_t serial_words, linkshoar_palette palette,
                                    const uint8_t *table, size_t table_bytes, uint32_t clocks, uint32_t blank, uint8_t *out,
                                    size_t out_bytes)
{
    return run(0, state, serial, serial_words, palette, table, table_bytes, clocks, blank, out, out_bytes);
}

linkshoar_shown linkshoar_panel_run_six(linkshoar_vram state, const uint16_t *serial, size_t serial_words, linkshoar_palette palette,
                                        const uint8_t *table, size_t table_bytes, uint32_t clocks, uint32_t blank, uint8_t *out,
                                        size_t out_bytes)
{
    return run(1, state, serial, serial_words, palette, table, table_bytes, clocks, blank, out, out_bytes);
}

/* The registers from the lowest byte up: colour, mask (two each), persistent, loaded, pointer, waiting; then the tap and the partition's
 * length, the word answered (two) and the number. */
static linkshoar_clocked clock_answer(uint64_t registers, uint64_t tap_and_stop, uint64_t word, uint64_t number)
{
    const uint64_t parts[2] = {registers, tap_and_stop | word << 16 | number << 32};
    linkshoar_clocked r;
    memcpy(&r, parts, sizeof r);
    return r;
}

linkshoar_clocked linkshoar_serial_clock(linkshoar_vram state, const uint16_t *serial, size_t serial_words)
{
    uint64_t registers;
    memcpy(&registers, &state, 8);
    unsigned stop = state.stop, tap_and_stop = state.tap | stop << 8;
    if (vram_bad(state))
        return clock_answer(registers, tap_and_stop, 0, 1);
    if (serial_words != 256)
        return clock_answer(registers, tap_and_stop, 0, 3);
    if (!state.loaded)
        return clock_answer(registers, tap_and_stop, 0, 10);
    uint8_t pointer = (uint8_t)(registers >> 48);
    if (state.waiting && !((pointer + 1u) & ((FAULT == 11 ? 128 : stop) - 1)))
        return clock_answer((registers & 0xFFFFFFFFFFFF) | (uint64_t)state.tap << 48, stop << 8, serial[pointer], 0);
    return clock_answer((registers & ~((uint64_t)255 << 48)) | (uint64_t)(uint8_t)(pointer + 1) << 48, tap_and_stop, serial[pointer], 0);
}

/* ---- palette accesses: the registers as one number, from the lowest byte up address, phase, red, green, blue, mask, the byte answered */

static uint64_t palette_registers(linkshoar_palette state)
{
    uint64_t p = 0;
    memcpy(&p, &state, sizeof state);
    return p;
}

static linkshoar_accessed accessed(uint64_t p, uint32_t number)
{
    linkshoar_accessed r;
    memcpy(&r, &p, sizeof p);
    r.number = number;
    return r;
}

/* A phase over 2, itself or raised by one, or a colour register over 63. */
static int palette_bad(uint64_t p)
{
    return ((p | (p + 0x100)) & 0xC0C0C0FC00) != 0;
}

/* Entry `address` in the colour registers, the next one's address, phase 0, and the pixel mask as it was. */
static uint64_t entry_taken(uint64_t p, uint8_t address, const uint8_t *table)
{
    const uint8_t *entry = table + 3 * address;
    p = (p & (uint64_t)255 << 40) | (uint8_t)(address + 1);
    return p | (entry[0] & 63u) << 16 | (uint64_t)(entry[1] & 63) << 24 | (uint64_t)(entry[2] & 63) << 32;
}

linkshoar_accessed linkshoar_palette_write(linkshoar_palette state, uint8_t *table, size_t table_bytes, uint32_t select, uint8_t value)
{
    uint64_t p = palette_registers(state);
    if (palette_bad(p))
        return accessed(p, 1);
    if (table_bytes != 768)
        return accessed(p, 3);
    if (select == 1) {
        unsigned at = 16 + (p >> 5 & 24);
        p = (p & ~((uint64_t)255 << at)) | (uint64_t)(value & 63) << at;
        if (p & 0x200) {
            uint8_t *entry = table + 3 * (uint8_t)p;
            entry[0] = (uint8_t)(p >> 16), entry[1] = (uint8_t)(p >> 24), entry[2] = (uint8_t)(p >> 32);
            p = (p & ~(uint64_t)0xFFFF) | (uint8_t)(p + 1);
        } else {
            p += 0x100;
        }
        return accessed(p, 0);
    }
    switch (select) {
    case 0: return accessed((p & ~(uint64_t)(FAULT == 5 ? 0xFF : 0xFFFF)) | value, 0);
    case 2: return accessed((p & 0xFFFFFFFFFF) | (uint64_t)value << 40, 0);
    case 3: return accessed(entry_taken(p, value, table), 0);
    default: return accessed(p, 11);
    }
}

linkshoar_accessed linkshoar_palette_read(linkshoar_palette state, const uint8_t *table, size_t table_bytes, uint32_t select)
{
    uint64_t p = palette_registers(state);
    if (palette_bad(p))
        return accessed(p, 1);
    if (table_bytes != 768)
        return accessed(p, 3);
    switch (select) {
    case 0: return accessed(p | (p & 255) << 48, 0);
    case 1: {
        uint64_t answer = (p >> (16 + (p >> 5 & 24)) & 255) << 48;
        if (p & 0x200)
            return accessed(answer | (FAULT == 6 ? p - 0x200 : entry_taken(p, (uint8_t)p, table)), 0);
        return accessed(answer | (p + 0x100), 0);
    }
    case 2: return accessed(p | p >> 40 << 48, 0);
    default: return accessed(p, 11);
    }
}
