/* Marks and results, change request M-110. `twins`: two boards that differ in every low byte and in nothing else are given the same list and
 * then the same run to the panel; numbers, places, states and marked rows must be the same, high bytes must agree, and each pixel whose high
 * byte is neither 0 nor 255 must have the same colour. `results`: a list whose writes reach no high byte must leave every high byte of the
 * memory. Both are asked of the library alone, or of the second implementation alone, in which faults can be planted.
 *   apart library|model twins|results [times] [seed]      a difference is printed and ends the run with 1 */
#include "compare.h"
#include "cutting.h"
#include "inputs.h"
#include "model.h"

#include <stdio.h>
#include <stdlib.h>
#include <string.h>

enum { SERIAL = LINKSHOAR_SERIAL_WORDS, TABLE = LINKSHOAR_TABLE_BYTES, ROWS = LINKSHOAR_MARKS_BYTES, MOST_OUT = 1600 };

typedef struct {
    __typeof__(linkshoar_list_run) *whole[2];
    __typeof__(linkshoar_list_run_marked) *marked[2];
    __typeof__(linkshoar_pieces_take) *take;
    __typeof__(linkshoar_pieces_end) *end;
    __typeof__(linkshoar_panel_run) *shows[2];
    __typeof__(linkshoar_serial_clock) *clock;
    __typeof__(linkshoar_word_read) *read;
} exports;

static const exports library = {{linkshoar_list_run, linkshoar_pencil_run},
                                {linkshoar_list_run_marked, linkshoar_pencil_run_marked},
                                linkshoar_pieces_take,
                                linkshoar_pieces_end,
                                {linkshoar_panel_run, linkshoar_panel_run_six},
                                linkshoar_serial_clock,
                                linkshoar_word_read};
static const exports model = {{model_list_run, model_pencil_run},
                              {model_list_run_marked, model_pencil_run_marked},
                              model_pieces_take,
                              model_pieces_end,
                              {model_panel_run, model_panel_run_six},
                              model_serial_clock,
                              model_word_read};
static const exports *tried;
static unsigned long long accepted, pixels;

/* ---- a list, on both boards (compare.h: _a the one, _b the other), in one of five ways */

static void same_answers(const char *way, linkshoar_vram a, linkshoar_vram b, uint32_t number, uint32_t other, uint64_t place, uint64_t at)
{
    count(number);
    if (number != other || place != at || !vram_same(a, b))
        differ(way);
}

static linkshoar_ran run_whole(unsigned engine, linkshoar_vram s, size_t words, size_t length)
{
    linkshoar_ran a = tried->whole[engine](s, memory_a, words, serial_a, SERIAL, bytes_of(bytes_a, length), length);
    linkshoar_ran b = tried->whole[engine](s, memory_b, words, serial_b, SERIAL, bytes_of(bytes_b, length), length);
    same_answers(engine ? "the plain engine's answer" : "the fast engine's answer", a.state, b.state, a.number, b.number, a.place, b.place);
    return a;
}

static linkshoar_ran run_marked(unsigned engine, linkshoar_vram s, size_t words, size_t length)
{
    some_bytes(table_a, table_b, ROWS);
    linkshoar_ran a = tried->marked[engine](s, memory_a, words, serial_a, SERIAL, table_a, ROWS, bytes_of(bytes_a, length), length);
    linkshoar_ran b = tried->marked[engine](s, memory_b, words, serial_b, SERIAL, table_b, ROWS, bytes_of(bytes_b, length), length);
    same_answers("the answer with marks of rows", a.state, b.state, a.number, b.number, a.place, b.place);
    same_bytes("the rows marked", table_a, table_b, ROWS);
    return a;
}

static linkshoar_ran run_pieces(linkshoar_vram s, size_t words, size_t length)
{
    linkshoar_taken a = {.state = s, .pieces = linkshoar_pieces_fresh()}, b = a;
    for (size_t at = 0, n; at < length; at += n) {
        n = some_piece(length - at);
        a = tried->take(a.state, a.pieces, memory_a, words, serial_a, SERIAL, bytes_of(bytes_a + at, n), n);
        b = tried->take(b.state, b.pieces, memory_b, words, serial_b, SERIAL, bytes_of(bytes_b + at, n), n);
        same_answers("a piece's answer", a.state, b.state, a.number, b.number, a.place, b.place);
        if (!pieces_same(a.pieces, b.pieces))
            differ("what is kept of a list in pieces");
    }
    a = tried->end(a.state, a.pieces, memory_a, words, serial_a, SERIAL);
    b = tried->end(b.state, b.pieces, memory_b, words, serial_b, SERIAL);
    same_answers("the last call's answer", a.state, b.state, a.number, b.number, a.place, b.place);
    return (linkshoar_ran){.state = a.state, .number = a.number, .place = a.place};
}

static linkshoar_vram run_list(linkshoar_vram s, size_t words, size_t length)
{
    unsigned way = below(5);
    linkshoar_ran r = way < 2 ? run_whole(way, s, words, length) : way < 4 ? run_marked(way - 2, s, words, length) : run_pieces(s, words, length);
    accepted += !r.number && length;
    return r.state;
}

/* ---- high bytes */

static void same_high(const char *what, const uint16_t *a, const uint16_t *b, size_t words)
{
    for (size_t i = 0; i < words; i++)
        if (a[i] / 256 != b[i] / 256)
            differ(what);
}

/* The same marks over other results: no low byte is the same. */
static void other_results(const uint16_t *a, uint16_t *b, size_t words)
{
    for (size_t i = 0; i < words; i++)
        b[i] = (uint16_t)(a[i] / 256 * 256 + (a[i] + 1 + below(255)) % 256);
}

/* ---- a run to the panel, a serial clock and a word read on both */

static void try_shown(linkshoar_vram s)
{
    uint32_t clocks = chance(8) ? about(513) : below(513), blank = chance(6), width = below(2);
    size_t room = clocks > 512 ? 1536 : 3 * (size_t)clocks + below(9) - (chance(20) && clocks);
    linkshoar_palette p = some_palette();
    some_bytes(table_a, table_b, TABLE);
    for (size_t i = 0; i < MOST_OUT; i++) { /* each board has a buffer of its own */
        bytes_a[i] = (uint8_t)any();
        bytes_b[i] = (uint8_t)any();
    }
    linkshoar_shown a = tried->shows[width](s, serial_a, SERIAL, p, table_a, TABLE, clocks, blank, bytes_a, room);
    linkshoar_shown b = tried->shows[width](s, serial_b, SERIAL, p, table_b, TABLE, clocks, blank, bytes_b, room);
    same_answers("the run's answer", a.state, b.state, a.number, b.number, 0, 0);
    for (uint32_t i = 0; i < clocks && !a.number; i++) {
        linkshoar_clocked word = tried->clock(s, serial_a, SERIAL);
        s = word.state;
        if (word.word / 256 == 0 || word.word / 256 == 255)
            continue;
        pixels++;
        if (memcmp(bytes_a + 3 * i, bytes_b + 3 * i, 3))
            differ("the colour of a pixel with a mark");
    }
}

static void try_words(linkshoar_vram s, uint32_t rows)
{
    linkshoar_clocked a = tried->clock(s, serial_a, SERIAL), b = tried->clock(s, serial_b, SERIAL);
    same_answers("a serial clock's answer", a.state, b.state, a.number, b.number, a.word / 256, b.word / 256);
    uint32_t row = about(rows), column = about(512), strobes = below(5);
    linkshoar_word c = tried->read(memory_a, 512 * (size_t)rows, row, column, strobes);
    linkshoar_word d = tried->read(memory_b, 512 * (size_t)rows, row, column, strobes);
    same_answers("a word read's answer", s, s, c.number, d.number, c.word / 256, d.word / 256);
}

static void twins(void)
{
    uint32_t rows = 1 + below(3);
    size_t words = 512 * (size_t)rows;
    some_words(memory_a, memory_b, words);
    some_words(serial_a, serial_b, SERIAL);
    other_results(memory_a, memory_b, words);
    other_results(serial_a, serial_b, SERIAL);
    linkshoar_vram s = some_vram();
    for (uint32_t n = 1 + below(3); n; n--) {
        s = run_list(s, words, some_list(rows));
        same_high("the marks in the memory", memory_a, memory_b, words);
        same_high("the marks in the serial register", serial_a, serial_b, SERIAL);
        try_shown(s);
        try_words(s, rows);
    }
}

/* ---- results alone: strobes 1, or masked while the mask in force has no bit of the high byte; mask loads too, but none with a bit of the high byte */

static size_t put_result(uint8_t *at, uint32_t rows)
{
    uint16_t row = (uint16_t)below(rows), column = (uint16_t)below(512), data = (uint16_t)any();
    uint8_t low = (uint8_t)below(2), masking = (uint8_t)(low ? below(2) : 1), strobes = (uint8_t)(low ? 1 : 1 + below(3));
    uint16_t mask = (uint16_t)(!masking ? 0 : low ? any() : below(256));
    switch (below(8)) {
    case 0: case 1: return linkshoar_put_word_write(at, row, column, data, masking, mask, strobes);
    case 2: return linkshoar_put_load_colour(at, data, (uint8_t)(1 + below(3)));
    case 3: return linkshoar_put_load_mask(at, (uint16_t)(data % 256), LINKSHOAR_STROBES_BOTH);
    case 4: return chance(8) ? linkshoar_put_block_write(at, (uint16_t)rows, column, data, masking, mask, strobes) /* a row that is not fitted */
                             : linkshoar_put_full_transfer(at, row, (uint8_t)below(2), (uint8_t)any());
    default: return linkshoar_put_block_write(at, row, column, data, masking, mask, strobes);
    }
}

static void results(void)
{
    static uint16_t before[3 * 512];
    uint32_t rows = 1 + below(3);
    size_t words = 512 * (size_t)rows, length = 0;
    linkshoar_vram s = linkshoar_vram_fresh();
    s.colour = (uint16_t)any();
    s.persistent = (uint8_t)below(2);
    s.mask = (uint16_t)(s.persistent ? below(256) : any());
    some_words(memory_a, memory_b, words);
    some_words(serial_a, serial_b, SERIAL);
    memcpy(before, memory_a, sizeof *before * words);
    for (uint32_t n = 1 + below(12); n; n--)
        length += put_result(bytes_a + length, rows);
    if (!chance(4))
        length += linkshoar_put_reset_refresh(bytes_a + length);
    memcpy(bytes_b, bytes_a, length);
    run_list(s, words, length);
    same_high("the marks after results were drawn", before, memory_a, words);
}

int main(int argc, char **argv)
{
    if (argc < 3 || (strcmp(argv[1], "library") && strcmp(argv[1], "model")) || (strcmp(argv[2], "twins") && strcmp(argv[2], "results")))
        return 2;
    int twin = !strcmp(argv[2], "twins");
    unsigned long most = argc > 3 ? strtoul(argv[3], NULL, 10) : 20000;
    tried = strcmp(argv[1], "model") ? &library : &model;
    sow(argc > 4 ? strtoull(argv[4], NULL, 10) : 1);
    for (unsigned long n = 0; n < most; n++)
        (twin ? twins : results)();
    printf("%s, %s: %llu calls, each on two boards, %llu lists accepted, ", argv[1], argv[2], calls, accepted);
    if (twin)
        printf("%llu pixels with a mark: no mark depends on a result\n", pixels);
    else
        printf("results alone drawn: every mark in the memory is as it was\n");
    if (!accepted || (twin && !pixels)) {
        printf("the run shows too little\n");
        return 1;
    }
    return 0;
}
