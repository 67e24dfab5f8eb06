/* The library side by side with plain C and with tuned C, each with -O2 and with -O3.
 *   bench                        nanoseconds for each unit of work, each the least of several rounds
 *   bench works                  the names of the works, how often each is to be run when instructions are counted, and the units of a run
 *   bench which work times       runs a work so often and does nothing else: what is counted */
#include "works.h"

#include <stdio.h>
#include <stdlib.h>
#include <string.h>
#include <time.h>

enum { ROUNDS = 9, WHICH = 5 };

extern const work plain_o2_works[WORKS], plain_o3_works[WORKS], tuned_o2_works[WORKS], tuned_o3_works[WORKS];

static const work *const works[WHICH] = {linkshoar_works, plain_o2_works, plain_o3_works, tuned_o2_works, tuned_o3_works};

uint16_t memory[WORDS], serial[256];
uint8_t masked_blocks[13 * FIELDS], plain_blocks[13 * FIELDS], masked_words[13 * FIELDS], plain_words[13 * FIELDS], colours[6 * FIELDS];
uint8_t marks[64], every_sixteenth[64]; /* MARKED of 512 */
rectangle rectangles[RECTANGLES];
uint8_t page[RECTANGLES * LINKSHOAR_RECTANGLE_BYTES];
uint8_t screen[LINKSHOAR_LIST_BYTES], plan[LINKSHOAR_LIST_BYTES], table[768];
_Alignas(64) uint8_t out[1536]; /* aligned: how the C library clears depends on where */
volatile uint32_t sink;

/* ---- what is worked on */

static void make_writes(uint8_t *at, uint8_t tag, uint8_t masking)
{
    for (unsigned i = 0; i < FIELDS; i++, at += 13) {
        const uint8_t mask = masking ? 0xFF : 0;
        const uint8_t field[13] = {tag, 0, 10, (uint8_t)(i % 2), (uint8_t)(i * 7), 0, (uint8_t)(i * 4), 0xA5, 0x3C, masking, 0, mask, 3};
        memcpy(at, field, 13);
    }
}

static void make_page(void)
{
    static const uint16_t height[5] = {22, 14, 14, 22, 1}, column[5] = {24, 64, 300, 292, 24}, width[5] = {22, 90, 90, 110, 464};
    static const uint16_t mask[5] = {0xFF00, 0x00FF, 0x00FF, 0xFF00, 0x00FF};
    for (uint16_t i = 0; i < RECTANGLES; i++) {
        uint16_t row = (uint16_t)(60 * (i / 5)), k = i % 5;
        rectangle q = {row, (uint16_t)(row + height[k]), column[k], (uint16_t)(column[k] + width[k]), mask[k], (uint16_t)(77 * i)};
        rectangles[i] = q;
        linkshoar_put_rectangle(page + LINKSHOAR_RECTANGLE_BYTES * i, q.first_row, q.end_row, q.first_column, q.end_column, q.mask, q.colour);
    }
    if (linkshoar_page(512, 0, page, sizeof page, plan, sizeof plan).cycles != PAGE_CYCLES) {
        fprintf(stderr, "the page has not the cycles that it is divided by\n");
        exit(1);
    }
}

static void make_all(void)
{
    make_page();
    make_writes(masked_blocks, 2, 1);
    make_writes(plain_blocks, 2, 0);
    make_writes(masked_words, 1, 1);
    make_writes(plain_words, 1, 0);
    for (unsigned i = 0; i < FIELDS; i++) {
        const uint8_t field[6] = {3, 0, 3, (uint8_t)i, (uint8_t)(i * 3), 3};
        memcpy(colours + 6 * i, field, 6);
    }
    linkshoar_fill(512, 0, 512, 0, 512, 0xFFFF, 0x1234, 0, screen, sizeof screen);
    for (unsigned i = 0; i < 256; i++)
        serial[i] = (uint16_t)(i % 3 == 0 ? i : i % 3 == 1 ? 256 * i + 1 : 0xFF00 + i); /* results, marks, results in reverse */
    for (unsigned i = 0; i < 768; i++)
        table[i] = (uint8_t)(i * 5);
    for (unsigned i = 0; i < 64; i += 2)
        every_sixteenth[i] = (uint8_t)(1u << i % 7);
}

/* ---- times */

static double now(void)
{
    struct timespec t;
    timespec_get(&t, TIME_UTC);
    return 1e9 * (double)t.tv_sec + (double)t.tv_nsec;
}

static double least(const work *w)
{
    double best = 1e18;
    for (int round = 0; round < ROUNDS; round++) {
        double began = now();
        int times = 0;
        do {
            w->run();
            times++;
        } while (now() - began < 2e7);
        double each = (now() - began) / times / w->units;
        best = each < best ? each : best;
    }
    return best;
}

static void measure(void)
{
    printf("%-34s   library plain -O2 plain -O3 tuned -O2 tuned -O3   by plain  by tuned\n", "nanoseconds");
    for (int w = 0; w < WORKS; w++) {
        double ns[WHICH];
        printf("%-34s", works[0][w].name);
        for (int which = 0; which < WHICH; which++)
            printf(" %9.2f", ns[which] = least(&works[which][w]));
        printf("   %8.2f  %8.2f\n", ns[0] / (ns[1] < ns[2] ? ns[1] : ns[2]), ns[0] / (ns[3] < ns[4] ? ns[3] : ns[4]));
    }
}

/* ---- what is counted */

/* So often that a unit's share of an instruction shows in the second digit after the point. */
static unsigned times(const work *w)
{
    return 1 + 16384 / w->units;
}

int main(int argc, char **argv)
{
    make_all();
    if (argc == 4) {
        int which = atoi(argv[1]), w = atoi(argv[2]);
        if (which < 0 || which >= WHICH || w < 0 || w >= WORKS)
            return 1;
        for (int n = atoi(argv[3]); n > 0; n--)
            works[which][w].run();
    } else if (argc == 2) {
        for (int w = 0; w < WORKS; w++)
            printf("%s\t%u\t%u\n", works[0][w].name, times(&works[0][w]), works[0][w].units);
    } else {
        measure();
    }
    return 0;
}
