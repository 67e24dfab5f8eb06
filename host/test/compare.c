#include "compare.h"

#include <stdio.h>
#include <stdlib.h>
#include <string.h>

unsigned long long calls, seen[NUMBERS];

/* ---- numbers at random */

static uint64_t seed = 1;

uint32_t any(void)
{
    seed ^= seed << 13;
    seed ^= seed >> 7;
    seed ^= seed << 17;
    return (uint32_t)(seed >> 24);
}

uint32_t below(uint32_t n)
{
    return any() % n;
}

int chance(uint32_t n)
{
    return below(n) == 0;
}

uint32_t about(uint32_t n)
{
    switch (below(12)) {
    case 0: return n;
    case 1: return n - 1;
    case 2: return chance(2) ? 65536 + below(n) : 256 + below(n);
    case 3: return any();
    default: return below(n);
    }
}

/* ---- what can be lent */

static uint16_t memories[2][AROUND + MOST_WORDS + AROUND], serials[2][AROUND + MOST_SERIAL + AROUND];
static uint8_t tables[2][AROUND + MOST_TABLE + AROUND], bytes[2][AROUND + LINKSHOAR_LIST_BYTES + AROUND];

uint16_t *const memory_a = memories[0] + AROUND, *const memory_b = memories[1] + AROUND;
uint16_t *const serial_a = serials[0] + AROUND, *const serial_b = serials[1] + AROUND;
uint8_t *const table_a = tables[0] + AROUND, *const table_b = tables[1] + AROUND;
uint8_t *const bytes_a = bytes[0] + AROUND, *const bytes_b = bytes[1] + AROUND;

void some_words(uint16_t *a, uint16_t *b, size_t n)
{
    for (size_t i = 0; i < n; i++)
        a[i] = b[i] = (uint16_t)(chance(3) ? below(256) : chance(8) ? 0xFF00 + below(256) : any());
}

void some_bytes(uint8_t *a, uint8_t *b, size_t n)
{
    for (size_t i = 0; i < n; i++)
        a[i] = b[i] = (uint8_t)any();
}

uint16_t *words_of(uint16_t *at, size_t n)
{
    return n ? at : NULL;
}

uint8_t *bytes_of(uint8_t *at, size_t n)
{
    return n ? at : NULL;
}

void sow(uint64_t from)
{
    seed = 0x9E3779B97F4A7C15u ^ from;
    some_words(memories[0], memories[1], sizeof memories[0] / 2);
    some_words(serials[0], serials[1], sizeof serials[0] / 2);
    some_bytes(tables[0], tables[1], sizeof tables[0]);
    some_bytes(bytes[0], bytes[1], sizeof bytes[0]);
}

/* ---- comparing */

void count(uint32_t number)
{
    calls++;
    if (number < NUMBERS)
        seen[number]++;
}

void differ(const char *what)
{
    printf("DIFFERENCE after %llu calls in %s\n", calls, what);
    exit(1);
}

int vram_same(linkshoar_vram a, linkshoar_vram b)
{
    return a.colour == b.colour && a.mask == b.mask && a.persistent == b.persistent && a.loaded == b.loaded && a.pointer == b.pointer &&
           a.waiting == b.waiting && a.tap == b.tap && a.stop == b.stop;
}

int pieces_same(linkshoar_pieces a, linkshoar_pieces b)
{
    return a.left == b.left && a.start == b.start && a.number == b.number && !memcmp(a.held, b.held, sizeof a.held) && a.count == b.count &&
           a.open == b.open;
}

int palette_same(linkshoar_palette a, linkshoar_palette b)
{
    return a.address == b.address && a.phase == b.phase && a.red == b.red && a.green == b.green && a.blue == b.blue && a.mask == b.mask;
}

void same_words(const char *what, const uint16_t *a, const uint16_t *b, size_t n)
{
    if (memcmp(a - AROUND, b - AROUND, 2 * (AROUND + n + AROUND)))
        differ(what);
}

void same_bytes(const char *what, const uint8_t *a, const uint8_t *b, size_t n)
{
    if (memcmp(a - AROUND, b - AROUND, AROUND + n + AROUND))
        differ(what);
}

void same_all(void)
{
    same_words("the memory, far from what was lent", memory_a, memory_b, MOST_WORDS);
    same_words("the serial register, far from what was lent", serial_a, serial_b, MOST_SERIAL);
    same_bytes("the table, far from what was lent", table_a, table_b, MOST_TABLE);
    same_bytes("the bytes, far from what was lent", bytes_a, bytes_b, LINKSHOAR_LIST_BYTES);
}
