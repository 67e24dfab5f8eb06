/* Marks of rows: runs with marks at random, marks cleared and searched; and a link that sends only marked rows, whose copy must be the
 * memory. */
#include "both.h"
#include "compare.h"
#include "inputs.h"
#include "model.h"
#include "tries.h"

#include <string.h>

enum { BYTES = LINKSHOAR_MARKS_BYTES, MOST_ROWS = 512 };

/* The marks stand where else the palette's table does. */
linkshoar_ran both_list_run_marked(linkshoar_vram state, size_t words, size_t serial_words, size_t marks, size_t length)
{
    linkshoar_ran a = linkshoar_list_run_marked(state, words_of(memory_a, words), words, words_of(serial_a, serial_words), serial_words,
                                                bytes_of(table_a, marks), marks, bytes_of(bytes_a, length), length);
    linkshoar_ran b = model_list_run_marked(state, words_of(memory_b, words), words, words_of(serial_b, serial_words), serial_words,
                                            bytes_of(table_b, marks), marks, bytes_of(bytes_b, length), length);
    count(b.number);
    if (!vram_same(a.state, b.state) || a.number != b.number || a.place != b.place)
        differ("linkshoar_list_run_marked");
    same_words("the memory of linkshoar_list_run_marked", memory_a, memory_b, words);
    same_words("the serial register of linkshoar_list_run_marked", serial_a, serial_b, serial_words);
    same_bytes("the marks of linkshoar_list_run_marked", table_a, table_b, marks);
    same_bytes("the list of linkshoar_list_run_marked", bytes_a, bytes_b, length);
    return b;
}

void both_marks_clear(size_t marks)
{
    uint32_t a = linkshoar_marks_clear(bytes_of(table_a, marks), marks), b = model_marks_clear(bytes_of(table_b, marks), marks);
    count(b);
    if (a != b)
        differ("linkshoar_marks_clear");
    same_bytes("the marks of linkshoar_marks_clear", table_a, table_b, marks);
}

linkshoar_marked both_marks_next(size_t marks, uint32_t start)
{
    linkshoar_marked a = linkshoar_marks_next(bytes_of(table_a, marks), marks, start);
    linkshoar_marked b = model_marks_next(bytes_of(table_b, marks), marks, start);
    count(b.number);
    if (a.number != b.number || a.found != b.found || a.row != b.row)
        differ("linkshoar_marks_next");
    same_bytes("the marks of linkshoar_marks_next", table_a, table_b, marks);
    return b;
}

/* Marks for both: few, many, at random or none. */
static void some_marks(void)
{
    uint32_t rare = 1u << below(8);
    for (size_t i = 0; i < BYTES; i++)
        table_a[i] = table_b[i] = (uint8_t)(chance(rare) ? (chance(2) ? 1u << below(8) : any()) : 0);
}

static size_t some_length(void)
{
    return chance(20) ? (chance(2) ? BYTES - 1 + 2 * below(2) : below(MOST_TABLE)) : BYTES;
}

/* A list with marks; then the marks are searched, and some are cleared. */
void try_marks(void)
{
    uint32_t rows = chance(3) ? 1 + below(3) : 1 + below(MOST_ROWS);
    size_t words = 512 * rows - (chance(40) ? 1 + below(600) % (512 * rows) : 0), serial = chance(40) ? below(MOST_SERIAL) : 256;
    some_marks();
    both_list_run_marked(some_vram(), words, serial, some_length(), some_list(rows));
    for (uint32_t n = below(4); n; n--)
        both_marks_next(some_length(), about(512));
    if (chance(3))
        both_marks_clear(some_length());
}

/* A transfer by a list without marks, a clock and a run to the panel: none of them draws. */
static linkshoar_vram show_between(linkshoar_vram state, uint32_t rows)
{
    size_t n = linkshoar_put_full_transfer(bytes_a, (uint16_t)below(rows), (uint8_t)below(2), (uint8_t)any());
    memcpy(bytes_b, bytes_a, n);
    state = both_list_run(state, 512 * (size_t)rows, 256, n);
    both_serial_clock(state, 256);
    both_panel_run(state, 256, linkshoar_palette_fresh(), 768, below(100), 0, 300);
    return state;
}

/* A link's copy of some rows: lists of every kind, accepted and refused, with what does not draw between them, and now and then only the
 * marked rows are sent. */
void try_link(void)
{
    static uint16_t copy[512 * MOST_ROWS];
    uint32_t rows = chance(8) ? 1 + below(MOST_ROWS) : 1 + below(20), sendings = 1 + below(3);
    size_t words = 512 * rows;
    linkshoar_vram state = linkshoar_vram_fresh();
    memcpy(copy, memory_a, 2 * words);
    both_marks_clear(BYTES);
    while (sendings--) {
        for (uint32_t n = below(4); n; n--) {
            state = both_list_run_marked(chance(4) ? some_vram() : state, words, 256, BYTES, some_list(rows)).state;
            if (chance(2))
                state = show_between(state, rows);
        }
        uint32_t sent = 0, last = 0;
        for (linkshoar_marked m = both_marks_next(BYTES, 0); m.found; m = both_marks_next(BYTES, m.row + 1)) {
            if (m.row >= rows || (sent && m.row <= last))
                differ("a walk by linkshoar_marks_next");
            memcpy(copy + 512 * m.row, memory_a + 512 * m.row, 1024);
            last = m.row, sent++;
        }
        if (memcmp(copy, memory_a, 2 * words))
            differ("the copy of a link that sends the marked rows");
        both_marks_clear(BYTES);
    }
}

/* Every row marked alone, and searched for from before it, from it and from the row after it; marks of every length about 64 with each of
 * 1 to 3 and a bad field beside it, after a write to one row and a transfer of another. */
void marks_edges(void)
{
    const size_t lengths[] = {0, 1, 63, 64, 65, 512};
    linkshoar_vram fresh = linkshoar_vram_fresh(), bad = fresh;
    bad.stop = 0;
    for (uint32_t row = 0; row < MOST_ROWS; row++) {
        both_marks_clear(BYTES);
        uint16_t same = memory_a[512 * row];
        size_t n = linkshoar_put_word_write(bytes_a, (uint16_t)row, 0, same, LINKSHOAR_MASKING_PLAIN, 0, LINKSHOAR_STROBES_BOTH);
        memcpy(bytes_b, bytes_a, n);
        both_list_run_marked(fresh, 512 * MOST_ROWS, 256, BYTES, n); /* no bit is changed */
        both_marks_next(BYTES, row < 9 ? 0 : row - 9);
        both_marks_next(BYTES, row), both_marks_next(BYTES, row + 1);
    }
    for (size_t l = 0; l < sizeof lengths / sizeof *lengths; l++) {
        both_marks_next(lengths[l], 511), both_marks_next(lengths[l], 512), both_marks_next(lengths[l], UINT32_MAX);
        for (unsigned wrong = 0; wrong < 16; wrong++) {
            size_t n = linkshoar_put_block_write(bytes_a, 0, 8, 0xFFFF, LINKSHOAR_MASKING_PLAIN, 0, LINKSHOAR_STROBES_BOTH);
            n += linkshoar_put_full_transfer(bytes_a + n, 1, 0, 0);
            n += linkshoar_put_load_colour(bytes_a + n, 0x1234, wrong & 8 ? 0 : LINKSHOAR_STROBES_BOTH);
            memcpy(bytes_b, bytes_a, n);
            some_marks();
            both_list_run_marked(wrong & 1 ? bad : fresh, wrong & 2 ? 513 : 1024, wrong & 4 ? 255 : 256, lengths[l], n);
        }
        both_marks_clear(lengths[l]);
    }
}
