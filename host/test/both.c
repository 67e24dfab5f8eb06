#include "both.h"

#include "compare.h"
#include "model.h"

#include <stdio.h>
#include <string.h>

linkshoar_vram both_list_run(linkshoar_vram state, size_t words, size_t serial_words, size_t length)
{
    linkshoar_ran a = linkshoar_list_run(state, words_of(memory_a, words), words, words_of(serial_a, serial_words), serial_words,
                                         bytes_of(bytes_a, length), length);
    linkshoar_ran b = model_list_run(state, words_of(memory_b, words), words, words_of(serial_b, serial_words), serial_words,
                                     bytes_of(bytes_b, length), length);
    count(b.number);
    if (!vram_same(a.state, b.state) || a.number != b.number || a.place != b.place)
        differ("linkshoar_list_run");
    same_words("the memory of linkshoar_list_run", memory_a, memory_b, words);
    same_words("the serial register of linkshoar_list_run", serial_a, serial_b, serial_words);
    same_bytes("the list of linkshoar_list_run", bytes_a, bytes_b, length);
    return a.state;
}

void both_word_read(size_t words, uint32_t row, uint32_t column, uint32_t strobes)
{
    linkshoar_word a = linkshoar_word_read(words_of(memory_a, words), words, row, column, strobes);
    linkshoar_word b = model_word_read(words_of(memory_b, words), words, row, column, strobes);
    count(b.number);
    if (a.number != b.number || a.word != b.word)
        differ("linkshoar_word_read");
    same_words("the memory of linkshoar_word_read", memory_a, memory_b, words);
}

void both_serial_clock(linkshoar_vram state, size_t serial_words)
{
    linkshoar_clocked a = linkshoar_serial_clock(state, words_of(serial_a, serial_words), serial_words);
    linkshoar_clocked b = model_serial_clock(state, words_of(serial_b, serial_words), serial_words);
    count(b.number);
    if (!vram_same(a.state, b.state) || a.word != b.word || a.number != b.number)
        differ("linkshoar_serial_clock");
    same_words("the serial register of linkshoar_serial_clock", serial_a, serial_b, serial_words);
}

/* The two panel runs take the same and differ in what they write. */
typedef linkshoar_shown panel_run(linkshoar_vram state, const uint16_t *serial, size_t serial_words, linkshoar_palette palette,
                                  const uint8_t *table, size_t table_bytes, uint32_t clocks, uint32_t blank, uint8_t *out, size_t out_bytes);

static const char *of(const char *what, const char *name)
{
    static char text[80];
    snprintf(text, sizeof text, "%s of %s", what, name);
    return text;
}

static void both_runs(const char *name, panel_run *ours, panel_run *theirs, linkshoar_vram state, size_t serial_words,
                      linkshoar_palette palette, size_t table_bytes, uint32_t clocks, uint32_t blank, size_t room)
{
    linkshoar_shown a = ours(state, words_of(serial_a, serial_words), serial_words, palette, bytes_of(table_a, table_bytes), table_bytes,
                             clocks, blank, bytes_of(bytes_a, room), room);
    linkshoar_shown b = theirs(state, words_of(serial_b, serial_words), serial_words, palette, bytes_of(table_b, table_bytes), table_bytes,
                               clocks, blank, bytes_of(bytes_b, room), room);
    count(b.number);
    if (!vram_same(a.state, b.state) || a.number != b.number)
        differ(name);
    same_bytes(of("the bytes", name), bytes_a, bytes_b, room);
    same_words(of("the serial register", name), serial_a, serial_b, serial_words);
    same_bytes(of("the table", name), table_a, table_b, table_bytes);
}

void both_panel_run(linkshoar_vram state, size_t serial_words, linkshoar_palette palette, size_t table_bytes, uint32_t clocks,
                    uint32_t blank, size_t room)
{
    both_runs("linkshoar_panel_run", linkshoar_panel_run, model_panel_run, state, serial_words, palette, table_bytes, clocks, blank, room);
}

void both_panel_run_six(linkshoar_vram state, size_t serial_words, linkshoar_palette palette, size_t table_bytes, uint32_t clocks,
                        uint32_t blank, size_t room)
{
    both_runs("linkshoar_panel_run_six", linkshoar_panel_run_six, model_panel_run_six, state, serial_words, palette, table_bytes, clocks,
              blank, room);
}

void both_palette_write(linkshoar_palette state, size_t table_bytes, uint32_t select, uint8_t value)
{
    linkshoar_accessed a = linkshoar_palette_write(state, bytes_of(table_a, table_bytes), table_bytes, select, value);
    linkshoar_accessed b = model_palette_write(state, bytes_of(table_b, table_bytes), table_bytes, select, value);
    count(b.number);
    if (!palette_same(a.state, b.state) || a.byte != b.byte || a.number != b.number)
        differ("linkshoar_palette_write");
    same_bytes("the table of linkshoar_palette_write", table_a, table_b, table_bytes);
}

void both_palette_read(linkshoar_palette state, size_t table_bytes, uint32_t select)
{
    linkshoar_accessed a = linkshoar_palette_read(state, bytes_of(table_a, table_bytes), table_bytes, select);
    linkshoar_accessed b = model_palette_read(state, bytes_of(table_b, table_bytes), table_bytes, select);
    count(b.number);
    if (!palette_same(a.state, b.state) || a.byte != b.byte || a.number != b.number)
        differ("linkshoar_palette_read");
    same_bytes("the table of linkshoar_palette_read", table_a, table_b, table_bytes);
}

/* ---- with the palette's state lent: it stands between bytes that must stay */

typedef struct {
    uint8_t before[16];
    linkshoar_palette state;
    uint8_t past[16];
} guarded;

static guarded guard(linkshoar_palette state)
{
    guarded f;
    memset(f.before, 0xA5, sizeof f.before);
    memset(f.past, 0xA5, sizeof f.past);
    f.state = state;
    return f;
}

static void same_guarded(const char *what, guarded f, linkshoar_palette state)
{
    guarded g = guard(state);
    if (!palette_same(f.state, state) || memcmp(f.before, g.before, sizeof f.before) || memcmp(f.past, g.past, sizeof f.past))
        differ(what);
}

linkshoar_palette both_palette_write_lent(linkshoar_palette state, size_t table_bytes, uint32_t select, uint8_t value)
{
    guarded lent = guard(state);
    uint32_t number = linkshoar_palette_write_lent(&lent.state, bytes_of(table_a, table_bytes), table_bytes, select, value);
    linkshoar_accessed b = model_palette_write(state, bytes_of(table_b, table_bytes), table_bytes, select, value);
    count(b.number);
    if (number != b.number)
        differ("linkshoar_palette_write_lent");
    same_guarded("the state lent to linkshoar_palette_write_lent", lent, b.state);
    same_bytes("the table of linkshoar_palette_write_lent", table_a, table_b, table_bytes);
    return b.state;
}

linkshoar_palette both_palette_read_lent(linkshoar_palette state, size_t table_bytes, uint32_t select)
{
    guarded lent = guard(state);
    linkshoar_byte a = linkshoar_palette_read_lent(&lent.state, bytes_of(table_a, table_bytes), table_bytes, select);
    linkshoar_accessed b = model_palette_read(state, bytes_of(table_b, table_bytes), table_bytes, select);
    count(b.number);
    if (a.number != b.number || a.byte != b.byte)
        differ("linkshoar_palette_read_lent");
    same_guarded("the state lent to linkshoar_palette_read_lent", lent, b.state);
    same_bytes("the table of linkshoar_palette_read_lent", table_a, table_b, table_bytes);
    return b.state;
}
