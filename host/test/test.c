/* Compares the library with the second implementation on random calls, valid and damaged: every member of every answer, and every word and
 * byte that is lent, with what lies around it.
 *   test [calls] [seed] [seconds]      a difference is printed and ends the run with 1 */
#include "both.h"
#include "compare.h"
#include "inputs.h"
#include "model.h"
#include "tries.h"

#include <stdio.h>
#include <stdlib.h>
#include <string.h>
#include <time.h>

enum { MOST_OUT = 1600 };

/* ---- calls */

static void try_list(void)
{
    uint32_t rows = chance(200) ? 1 + below(512) : 1 + below(3);
    size_t words = 512 * rows - (chance(40) ? 1 + below(600) % (512 * rows) : 0), serial = chance(40) ? below(MOST_SERIAL) : 256;
    some_words(memory_a, memory_b, words);
    some_words(serial_a, serial_b, 256);
    both_list_run(some_vram(), words, serial, some_list(rows));
}

static void try_read(void)
{
    uint32_t rows = 1 + below(3), row = about(rows), column = about(512), strobes = chance(3) ? (chance(2) ? 259 : any()) : below(5);
    size_t words = 512 * rows - (chance(30) ? 1 + below(511) : 0);
    some_words(memory_a, memory_b, words);
    both_word_read(words, row, column, strobes);
}

static void try_clock(void)
{
    some_words(serial_a, serial_b, 256);
    both_serial_clock(some_vram(), chance(30) ? below(MOST_SERIAL) : 256);
}

static void try_panel(void)
{
    size_t serial = chance(40) ? below(MOST_SERIAL) : 256, table = chance(40) ? below(MOST_TABLE) : 768, room;
    uint32_t clocks = chance(8) ? about(513) : chance(4) ? 0 : below(513), blank = chance(3) ? (chance(2) ? 256 : 1) : 0;
    linkshoar_vram s = some_vram();
    room = chance(6) ? below(MOST_OUT) : clocks < 512 ? 3 * clocks + below(9) : 1536;
    some_words(serial_a, serial_b, 256);
    some_bytes(table_a, table_b, 768);
    some_bytes(bytes_a, bytes_b, MOST_OUT);
    (chance(2) ? both_panel_run : both_panel_run_six)(s, serial, some_palette(), table, clocks, blank, room);
}

static void try_palette(void)
{
    linkshoar_palette s = some_palette();
    size_t table = chance(30) ? below(MOST_TABLE) : 768;
    uint32_t select = chance(8) ? (chance(2) ? 257 : any()) : below(5);
    some_bytes(table_a, table_b, 768);
    both_palette_write(s, table, select, (uint8_t)any());
    both_palette_read(s, table, select);
}

/* Some accesses in a row, with the state lent. */
static void try_lent(void)
{
    linkshoar_palette s = some_palette();
    some_bytes(table_a, table_b, 768);
    for (uint32_t n = below(4); n; n--) {
        size_t table = chance(30) ? below(MOST_TABLE) : 768;
        uint32_t select = chance(8) ? (chance(2) ? 257 : any()) : below(5);
        s = chance(3) ? both_palette_read_lent(s, table, select) : both_palette_write_lent(s, table, select, (uint8_t)any());
    }
}

/* Each number has a text of its own. */
static void try_texts(void)
{
    for (uint32_t n = 0; n < NUMBERS; n++)
        for (uint32_t m = n + 1; m <= NUMBERS; m++)
            if (!strcmp(linkshoar_strerror(n), linkshoar_strerror(m)))
                differ("linkshoar_strerror");
}

static void try_fresh(void)
{
    if (!vram_same(linkshoar_vram_fresh(), model_vram_fresh()))
        differ("linkshoar_vram_fresh");
    if (!palette_same(linkshoar_palette_fresh(), model_palette_fresh()))
        differ("linkshoar_palette_fresh");
}

/* Fifteen, and one time in seventeen one of the last seven, which are some tens of calls each. */
static void (*const tries[])(void) = {try_fill, try_page, try_read, try_clock, try_panel, try_palette, try_palette, try_lent, try_list,
                                      try_list, try_list, try_pencil, try_pencil, try_marks, try_marks, try_link, try_controller, try_frame,
                                      try_pieces, try_cutting, try_colours, try_pipe};

int main(int argc, char **argv)
{
    unsigned long long most = argc > 1 ? strtoull(argv[1], NULL, 10) : 600000;
    double seconds = argc > 3 ? strtod(argv[3], NULL) : 0;
    sow(argc > 2 ? strtoull(argv[2], NULL, 10) : 1);
    time_t began = time(NULL);
    try_texts();
    try_fresh();
    try_fields();
    try_edges();
    try_saved();
    while (calls < most || (seconds > 0 && difftime(time(NULL), began) < seconds)) {
        tries[chance(17) ? 15 + below(7) : below(15)]();
        if (chance(2000))
            same_all();
    }
    same_all();
    printf("%llu calls, no difference; by number:", calls);
    int all = 1;
    for (uint32_t n = 0; n < NUMBERS; n++) {
        printf(" %u: %llu", n, seen[n]);
        all = all && seen[n];
    }
    printf("\n");
    if (!all) {
        printf("a number was never given: the run shows too little\n");
        return 1;
    }
    return 0;
}
