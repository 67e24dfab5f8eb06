/* Document 01, as the change requests have amended it, in plain C as one would write it: what the library is compared with. It is built twice, with -O2 and with -O3. */
#include "as.h"

#include <string.h>

static int partition_bad(unsigned length)
{
    return length != 16 && length != 32 && length != 64 && length != 128;
}

static int vram_bad(linkshoar_vram s)
{
    return partition_bad(s.stop) || s.persistent > 1 || s.loaded > 1 || s.waiting > 1 ||
           (s.waiting ? !s.loaded || (s.tap ^ s.pointer) < 128 : s.tap != 0);
}

static int palette_bad(linkshoar_palette p)
{
    return p.phase > 2 || (p.red | p.green | p.blue) > 63;
}

static unsigned pair(const uint8_t *at)
{
    return (unsigned)at[0] << 8 | at[1];
}

static const uint8_t body_bytes[10] = {255, 10, 10, 3, 3, 0, 4, 4, 255, 1};

static uint32_t judge(const uint8_t *f, size_t left, unsigned rows, int loaded)
{
    if (left < 3 || f[0] < 1 || f[0] > 9 || f[0] == 8 || pair(f + 1) != body_bytes[f[0]] || left < 3u + body_bytes[f[0]])
        return 4;
    const uint8_t *b = f + 3;
    switch (f[0]) {
    case 1: case 2:
        return pair(b) >= rows ? 5 : pair(b + 2) > 511 ? 6 : (unsigned)b[9] - 1 > 2 ? 7 : b[6] > 1 || (!b[6] && pair(b + 7) && FAULT != 2) ? 8 : 0;
    case 3: case 4:
        return (unsigned)b[2] - 1 > 2 ? 7 : 0;
    case 6:
        return pair(b) >= rows ? 5 : b[2] > 1 ? 9 : 0;
    case 7:
        return pair(b) >= rows ? 5 : b[2] > 1 || b[3] > 127 ? 9 : loaded ? 0 : 10;
    case 9:
        return partition_bad(b[0]) ? 19 : 0;
    default:
        return 0;
    }
}

static unsigned bytes_of(unsigned strobes)
{
    return (strobes & 1 ? 0x00FFu : 0) | (strobes & 2 ? 0xFF00u : 0);
}

static uint16_t merge(unsigned old, unsigned new, unsigned allow)
{
    return (uint16_t)((old & ~allow) | (new & allow));
}

linkshoar_ran linkshoar_list_run(linkshoar_vram state, uint16_t *memory, size_t words, uint16_t *serial, size_t serial_words,
                                 const uint8_t *list, size_t length)
{
    linkshoar_ran r = {state, 0, 0};
    if (vram_bad(state))
        r.number = 1;
    else if (words < 512 || words > 262144 || words % 512)
        r.number = 2;
    else if (serial_words != 256)
        r.number = 3;
    if (r.number || !length)
        return r;
    int loaded = state.loaded;
    size_t open = length; /* the last mask load, until a reset refresh comes */
    for (size_t at = 0; at < length; at += 3u + body_bytes[list[at]]) {
        r.number = judge(list + at, length - at, (unsigned)(words / 512), loaded);
        if (r.number) {
            r.place = at;
            return r;
        }
        loaded |= list[at] == 6;
        if (list[at] == 4 && (FAULT != 13 || open == length))
            open = at;
        else if (list[at] == 5)
            open = length;
    }
    if (open < length && FAULT != 12) {
        r.number = 20;
        r.place = open;
        return r;
    }
    linkshoar_vram s = state;
    for (const uint8_t *f = list, *end = list + length; f < end; f += 3u + body_bytes[f[0]]) {
        const uint8_t *b = f + 3;
        switch (f[0]) {
        case 1: case 2: {
            unsigned force = b[6] ? s.persistent ? s.mask : pair(b + 7) : 0xFFFF, allow = force & bytes_of(b[9]);
            uint16_t *word = memory + 512 * pair(b);
            if (f[0] == 1) {
                word += pair(b + 2);
                *word = merge(*word, pair(b + 4), allow);
            } else {
                word += pair(b + 2) & (FAULT == 1 ? ~0u : ~3u);
                for (unsigned j = 0; j < 4; j++) {
                    unsigned quads = pair(b + 4) >> j & 0x1111;
                    word[j] = merge(word[j], s.colour, allow & quads * 15);
                }
            }
            break;
        }
        case 3: s.colour = merge(s.colour, pair(b), bytes_of(b[2])); break;
        case 4: s.mask = merge(s.mask, pair(b), bytes_of(b[2])), s.persistent = 1; break;
        case 5: s.persistent = 0, s.stop = FAULT == 10 ? s.stop : 128; break;
        case 6:
            memcpy(serial, memory + 512 * pair(b) + 256u * b[2], 512);
            s.loaded = 1, s.pointer = b[3], s.waiting = 0, s.tap = 0;
            break;
        case 7: {
            unsigned h = s.pointer < 128 ? 128 : 0;
            memcpy(serial + h, memory + 512 * pair(b) + 256u * b[2] + h, 256);
            s.waiting = 1, s.tap = (uint8_t)(h + b[3]);
            break;
        }
        default: s.stop = b[0];
        }
    }
    r.state = s;
    return r;
}

linkshoar_ran linkshoar_list_run_marked(linkshoar_vram state, uint16_t *memory, size_t words, uint16_t *serial, size_t serial_words,
                                        uint8_t *marks, size_t marks_bytes, const uint8_t *list, size_t length)
{
    if (marks_bytes != 64 && !vram_bad(state) && words >= 512 && words <= 262144 && words % 512 == 0 && serial_words == 256) {
        linkshoar_ran refused = {state, 18, 0};
        return refused;
    }
    linkshoar_ran r = linkshoar_list_run(state, memory, words, serial, serial_words, list, length);
    size_t end = r.number ? FAULT == 17 && marks_bytes == 64 ? r.place : 0 : length;
    for (size_t at = 0; at < end; at += 3u + body_bytes[list[at]])
        if (list[at] == 2 || (list[at] == 1 && FAULT != 16)) {
            unsigned row = pair(list + at + 3);
            marks[row / 8] |= (uint8_t)(1u << row % 8);
        }
    return r;
}

uint32_t linkshoar_marks_clear(uint8_t *marks, size_t marks_bytes)
{
    if (marks_bytes != 64)
        return 18;
    memset(marks, 0, 64);
    return 0;
}

linkshoar_marked linkshoar_marks_next(const uint8_t *marks, size_t marks_bytes, uint32_t start)
{
    linkshoar_marked r = {marks_bytes != 64 ? 18 : start > 511 ? 5 : 0, 0, 0};
    if (r.number)
        return r;
    for (uint32_t row = start + (FAULT == 18); row < 512; row++)
        if (marks[row / 8] >> row % 8 & 1) {
            r.found = 1, r.row = row;
            break;
        }
    return r;
}

static uint8_t *put(uint8_t *at, unsigned tag, unsigned row, unsigned column, unsigned value, unsigned mask)
{
    const uint8_t field[13] = {(uint8_t)tag, 0, 10, (uint8_t)(row >> 8), (uint8_t)row, (uint8_t)(column >> 8), (uint8_t)column, (uint8_t)(value >> 8),
                               (uint8_t)value, 1, (uint8_t)(mask >> 8), (uint8_t)mask, 3};
    memcpy(at, field, 13);
    return at + 13;
}

linkshoar_filled linkshoar_fill(uint32_t rows, uint32_t first_row, uint32_t end_row, uint32_t first_column, uint32_t end_column,
                                uint16_t mask, uint16_t colour, uint32_t persistent, uint8_t *list, size_t length)
{
    linkshoar_filled r = {0, 0, 0};
    if (rows - 1 > 511)
        r.number = 2;
    else if (first_row > end_row || first_column > end_column || end_column > 512 || end_row > rows)
        r.number = 12;
    else if (persistent)
        r.number = 13;
    uint32_t height = end_row - first_row, width = end_column - first_column, first = first_column / 4, last = (end_column + 3) / 4;
    if (r.number || !mask || !height || !width)
        return r;
    uint32_t words = height * width, blocks = height * (last - first);
    int by_words = words <= blocks + (FAULT != 7);
    uint32_t bytes = by_words ? 13 * words : 6 + 13 * blocks;
    if (length < bytes) {
        r.number = 15;
        return r;
    }
    uint8_t *at = list;
    if (by_words) {
        for (uint32_t row = first_row; row < end_row; row++)
            for (uint32_t column = first_column; column < end_column; column++)
                at = put(at, 1, row, column, colour, mask);
    } else {
        const uint8_t load[6] = {3, 0, 3, (uint8_t)(colour >> 8), (uint8_t)colour, 3};
        unsigned left = 0x1111u * (15u << first_column % 4 & 15), right = 0x1111u * (15u >> (3 - (end_column - 1) % 4));
        memcpy(at, load, 6);
        at += 6;
        for (uint32_t row = first_row; row < end_row; row++)
            for (uint32_t k = first; k < last; k++)
                at = put(at, 2, row, 4 * k, (k == first ? left : 0xFFFF) & (k + 1 == last ? right : 0xFFFF), mask);
    }
    r.bytes = bytes;
    r.cycles = by_words ? words : 1 + blocks;
    return r;
}

static uint32_t rectangle_number(const uint8_t *b, size_t left, uint32_t rows)
{
    if (left < 15 || b[0] != 8 || pair(b + 1) != 12)
        return 4;
    return pair(b + 3) > pair(b + 5) || pair(b + 7) > pair(b + 9) || pair(b + 9) > 512 || pair(b + 5) > rows ? 12 : 0;
}

static uint32_t rectangle_bytes(const uint8_t *b)
{
    uint32_t height = pair(b + 5) - pair(b + 3), width = pair(b + 9) - pair(b + 7), across = (pair(b + 9) + 3) / 4 - pair(b + 7) / 4;
    if (!pair(b + (FAULT == 15 ? 13 : 11)) || !height || !width)
        return 0;
    uint32_t words = height * width, blocks = height * across;
    return words <= blocks + (FAULT != 7) ? 13 * words : 6 + 13 * blocks;
}

linkshoar_paged linkshoar_page(uint32_t rows, uint32_t persistent, const uint8_t *rectangles, size_t length, uint8_t *list, size_t room)
{
    linkshoar_paged r = {0, 0, 0, 0};
    uint64_t bytes = 0;
    if (rows - 1 > 511) {
        r.number = 2;
        return r;
    }
    for (size_t at = 0; at < length; at += 15) {
        r.number = rectangle_number(rectangles + at, length - at, rows);
        if (r.number) {
            r.place = at;
            return r;
        }
        bytes += rectangle_bytes(rectangles + at); /* no list of rectangles that a machine holds comes near 2^64 */
    }
    if (persistent || (bytes > room && FAULT != 14)) {
        r.number = persistent ? 13 : 15;
        return r;
    }
    bytes = 0;
    for (size_t at = 0; at < length; at += 15) {
        const uint8_t *b = rectangles + at + 3;
        uint16_t mask = (uint16_t)pair(b + 8), colour = (uint16_t)pair(b + 10);
        linkshoar_filled f = linkshoar_fill(rows, pair(b), pair(b + 2), pair(b + 4), pair(b + 6), FAULT == 15 ? colour : mask,
                                            FAULT == 15 ? mask : colour, 0, list + bytes, room - bytes);
        if (f.number) {
            r.number = f.number;
            r.bytes = r.cycles = 0;
            return r;
        }
        bytes += f.bytes;
        r.cycles += f.cycles;
    }
    r.bytes = bytes;
    return r;
}

static linkshoar_vram clocked(linkshoar_vram s)
{
    unsigned last = (FAULT == 11 ? 128u : s.stop) - 1;
    if (s.waiting && (s.pointer & last) == last)
        s.pointer = s.tap, s.waiting = FAULT == 3, s.tap = 0;
    else
        s.pointer++;
    return s;
}

static uint8_t part(unsigned byte, int six)
{
    unsigned v = byte & 63;
    return (uint8_t)(six ? v : 4 * v + (FAULT == 9 ? 0 : v / 16));
}

static linkshoar_shown run(int six, linkshoar_vram state, const uint16_t *serial, size_t serial_words, linkshoar_palette palette,
                           const uint8_t *table, size_t table_bytes, uint32_t clocks, uint32_t blank, uint8_t *out, size_t out_bytes)
{
    linkshoar_shown r = {state, 0};
    if (vram_bad(state) || palette_bad(palette))
        r.number = 1;
    else if (serial_words != 256 || table_bytes != 768)
        r.number = 3;
    else if (clocks && !state.loaded)
        r.number = 10;
    else if (clocks > 512)
        r.number = 14;
    else if (out_bytes < 3 * (size_t)clocks)
        r.number = 15;
    if (r.number)
        return r;
    for (uint32_t left = clocks; left;) {
        uint32_t n = state.stop - (r.state.pointer & (state.stop - 1u));
        n = n < left ? n : left;
        const uint16_t *word = serial + r.state.pointer;
        if (blank) {
            memset(out, 0, 3 * (size_t)n);
            out += 3 * n;
        } else {
            for (uint32_t i = 0; i < n; i++, out += 3) {
                unsigned high = word[i] >> 8, low = word[i] & 255u;
                unsigned pixel = high == 0 ? low : high == 255 && FAULT != 8 ? low ^ 255u : high;
                const uint8_t *entry = table + 3 * (pixel & (FAULT == 4 ? 255 : palette.mask));
                out[0] = part(entry[0], six), out[1] = part(entry[1], six), out[2] = part(entry[2], six);
            }
        }
        r.state.pointer = (uint8_t)(r.state.pointer + n - 1);
        r.state = clocked(r.state);
        left -= n;
    }
    return r;
}

linkshoar_shown linkshoar_panel_run(linkshoar_vram state, const uint16_t *serial, size_t serial_words, linkshoar_palette palette,
                                    const uint8_t *table, size_t table_bytes, uint32_t clocks, uint32_t blank, uint8_t *out,
                                    size_t out_bytes)
{
    return run(0, state, serial, serial_words, palette, table, table_bytes, clocks, blank, out, out_bytes);
}

linkshoar_shown linkshoar_panel_run_six(linkshoar_vram state, const uint16_t *serial, size_t serial_words, linkshoar_palette palette,
                                        const uint8_t *table, size_t table_bytes, uint32_t clocks, uint32_t blank, uint8_t *out,
                                        size_t out_bytes)
{
    return run(1, state, serial, serial_words, palette, table, table_bytes, clocks, blank, out, out_bytes);
}

linkshoar_clocked linkshoar_serial_clock(linkshoar_vram state, const uint16_t *serial, size_t serial_words)
{
    linkshoar_clocked r = {state, 0, 0};
    if (vram_bad(state))
        r.number = 1;
    else if (serial_words != 256)
        r.number = 3;
    else if (!state.loaded)
        r.number = 10;
    else
        r.word = serial[state.pointer], r.state = clocked(state);
    return r;
}

/* The registers take entry A, and A goes up by one. */
static void take_entry(linkshoar_palette *p, const uint8_t *table)
{
    const uint8_t *entry = table + 3 * p->address;
    p->red = entry[0] & 63, p->green = entry[1] & 63, p->blue = entry[2] & 63;
    p->address++;
}

linkshoar_accessed linkshoar_palette_write(linkshoar_palette p, uint8_t *table, size_t table_bytes, uint32_t select, uint8_t value)
{
    linkshoar_accessed r = {p, 0, 0};
    if (palette_bad(p))
        r.number = 1;
    else if (table_bytes != 768)
        r.number = 3;
    else if (select > 3)
        r.number = 11;
    if (r.number)
        return r;
    switch (select) {
    case 3: p.address = value, p.phase = 0, take_entry(&p, table); break;
    case 0: p.address = value, p.phase = FAULT == 5 ? p.phase : 0; break;
    case 2: p.mask = value; break;
    default:
        value &= 63;
        if (p.phase == 0) {
            p.red = value, p.phase = 1;
        } else if (p.phase == 1) {
            p.green = value, p.phase = 2;
        } else {
            uint8_t *entry = table + 3 * p.address;
            p.blue = value;
            entry[0] = p.red, entry[1] = p.green, entry[2] = p.blue;
            p.address++, p.phase = 0;
        }
    }
    r.state = p;
    return r;
}

linkshoar_accessed linkshoar_palette_read(linkshoar_palette p, const uint8_t *table, size_t table_bytes, uint32_t select)
{
    linkshoar_accessed r = {p, 0, 0};
    if (palette_bad(p))
        r.number = 1;
    else if (table_bytes != 768)
        r.number = 3;
    else if (select > 2)
        r.number = 11;
    else if (select == 0)
        r.byte = p.address;
    else if (select == 2)
        r.byte = p.mask;
    else if (p.phase == 0)
        r.byte = p.red, r.state.phase = 1;
    else if (p.phase == 1)
        r.byte = p.green, r.state.phase = 2;
    else {
        r.byte = p.blue, r.state.phase = 0;
        if (FAULT != 6)
            take_entry(&r.state, table);
    }
    return r;
}
