/* The plain engine: its lists at random against the second implementation's, and against the library's own fast engine. */
#include "both.h"
#include "compare.h"
#include "inputs.h"
#include "model.h"
#include "tries.h"

#include <string.h>

enum { BYTES = LINKSHOAR_MARKS_BYTES };

static void same_run(const char *name, linkshoar_ran a, linkshoar_ran b, size_t words, size_t serial_words, size_t marks, size_t length)
{
    count(b.number);
    if (!vram_same(a.state, b.state) || a.number != b.number || a.place != b.place)
        differ(name);
    same_words(name, memory_a, memory_b, words);
    same_words(name, serial_a, serial_b, serial_words);
    same_bytes(name, table_a, table_b, marks);
    same_bytes(name, bytes_a, bytes_b, length);
}

static void both_pencil_run(linkshoar_vram state, size_t words, size_t serial_words, size_t length)
{
    linkshoar_ran a = linkshoar_pencil_run(state, words_of(memory_a, words), words, words_of(serial_a, serial_words), serial_words,
                                           bytes_of(bytes_a, length), length);
    linkshoar_ran b = model_pencil_run(state, words_of(memory_b, words), words, words_of(serial_b, serial_words), serial_words,
                                       bytes_of(bytes_b, length), length);
    same_run("linkshoar_pencil_run", a, b, words, serial_words, 0, length);
}

static linkshoar_vram both_pencil_run_marked(linkshoar_vram state, size_t words, size_t serial_words, size_t marks, size_t length)
{
    linkshoar_ran a = linkshoar_pencil_run_marked(state, words_of(memory_a, words), words, words_of(serial_a, serial_words), serial_words,
                                                  bytes_of(table_a, marks), marks, bytes_of(bytes_a, length), length);
    linkshoar_ran b = model_pencil_run_marked(state, words_of(memory_b, words), words, words_of(serial_b, serial_words), serial_words,
                                              bytes_of(table_b, marks), marks, bytes_of(bytes_b, length), length);
    same_run("linkshoar_pencil_run_marked", a, b, words, serial_words, marks, length);
    return a.state;
}

/* The library's two engines, each on its own of what can be lent. */
static void both_engines(linkshoar_vram state, size_t words, size_t serial_words, size_t marks, size_t length)
{
    linkshoar_ran a, b;
    if (chance(2)) {
        a = linkshoar_list_run(state, words_of(memory_a, words), words, words_of(serial_a, serial_words), serial_words,
                               bytes_of(bytes_a, length), length);
        b = linkshoar_pencil_run(state, words_of(memory_b, words), words, words_of(serial_b, serial_words), serial_words,
                                 bytes_of(bytes_b, length), length);
    } else {
        a = linkshoar_list_run_marked(state, words_of(memory_a, words), words, words_of(serial_a, serial_words), serial_words,
                                      bytes_of(table_a, marks), marks, bytes_of(bytes_a, length), length);
        b = linkshoar_pencil_run_marked(state, words_of(memory_b, words), words, words_of(serial_b, serial_words), serial_words,
                                        bytes_of(table_b, marks), marks, bytes_of(bytes_b, length), length);
    }
    same_run("the library's two engines", a, b, words, serial_words, marks, length);
}

/* Lists one after the other on one state, memory and marks, each on either engine. */
static void take_turns(linkshoar_vram state, uint32_t rows)
{
    for (uint32_t n = 1 + below(4); n; n--) {
        size_t length = some_list(rows);
        state = chance(2) ? both_pencil_run_marked(state, 512 * (size_t)rows, 256, BYTES, length)
                          : both_list_run_marked(state, 512 * (size_t)rows, 256, BYTES, length).state;
    }
}

/* A list of any kind, valid and damaged, on a state of any kind. */
void try_pencil(void)
{
    uint32_t rows = chance(200) ? 1 + below(512) : 1 + below(3);
    size_t words = 512 * rows - (chance(40) ? 1 + below(600) % (512 * rows) : 0), serial = chance(40) ? below(MOST_SERIAL) : 256;
    size_t marks = chance(20) ? (chance(2) ? BYTES - 1 + 2 * below(2) : below(MOST_TABLE)) : BYTES;
    some_words(memory_a, memory_b, words);
    some_words(serial_a, serial_b, 256);
    some_bytes(table_a, table_b, BYTES);
    linkshoar_vram s = some_vram();
    if (chance(8)) {
        take_turns(s, rows);
        return;
    }
    size_t length = some_list(rows);
    switch (below(3)) {
    case 0: both_pencil_run(s, words, serial, length); break;
    case 1: both_pencil_run_marked(s, words, serial, marks, length); break;
    default: both_engines(s, words, serial, marks, length); break;
    }
}

/* Each of the 16 bits of a column mask alone, from each of the four columns, with every strobe, plain and masked, while the mask is persistent
 * and not, on words of zeros and of ones, also by a word write; and memories, serial registers and marks of every length about the right
 * one. */
void pencil_edges(void)
{
    static const size_t memories[] = {0, 511, 512, 513 * 512}, serials[] = {0, 255, 256, 257}, marks[] = {0, 63, 64, 65};
    linkshoar_vram s = linkshoar_vram_fresh();
    s.colour = 0xA5C3;
    s.mask = 0x6BF9;
    for (unsigned n = 0; n < 16 * 4 * 3 * 2 * 2 * 2; n++) {
        unsigned columns = 1u << n % 16, column = 4 + n / 16 % 4, masking = n / 192 % 2;
        uint8_t strobes = (uint8_t)(1 + n / 64 % 3);
        s.persistent = (uint8_t)(n / 384 % 2);
        for (unsigned i = 0; i < 12; i++)
            memory_a[i] = memory_b[i] = (uint16_t)(n / 768 ? 0xFFFF : 0);
        size_t length = linkshoar_put_block_write(bytes_a, 0, (uint16_t)column, (uint16_t)columns, (uint8_t)masking, (uint16_t)(masking ? 0x9D17 : 0), strobes);
        length += linkshoar_put_word_write(bytes_a + length, 0, (uint16_t)(column - 4), (uint16_t)columns, (uint8_t)masking, (uint16_t)(masking ? 0x9D17 : 0), strobes);
        memcpy(bytes_b, bytes_a, length);
        both_pencil_run(s, 512, 256, length);
    }
    size_t length = linkshoar_put_block_write(bytes_a, 0, 8, 0xFFFF, LINKSHOAR_MASKING_PLAIN, 0, LINKSHOAR_STROBES_BOTH);
    memcpy(bytes_b, bytes_a, length);
    for (unsigned n = 0; n < 4 * 4 * 4; n++) {
        both_pencil_run(s, memories[n / 16], serials[n / 4 % 4], length - n % 2);
        both_pencil_run_marked(s, memories[n / 16], serials[n / 4 % 4], marks[n % 4], length);
    }
}
