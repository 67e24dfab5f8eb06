/* What is measured: units of work, the same for the library and for each C that it is compared with. works.c is compiled once for each. */
#ifndef WORKS_H
#define WORKS_H

#include "as.h"

typedef struct {
    const char *name;
    void (*run)(void);
    unsigned units; /* that one run does */
} work;

/* A results page: eight lines of a mark, a label, a value and its cell, and a rule. */
typedef struct {
    uint16_t first_row, end_row, first_column, end_column, mask, colour;
} rectangle;

enum { WORKS = 20, WORDS = 262144, MARKED = 32, FIELDS = 4096, LINES = 8, RECTANGLES = 5 * LINES, PAGE_CYCLES = 12104 };

extern const work linkshoar_works[WORKS];

/* What they work on, made by bench.c. */
extern uint16_t memory[WORDS], serial[256];
extern uint8_t masked_blocks[13 * FIELDS], plain_blocks[13 * FIELDS], masked_words[13 * FIELDS], plain_words[13 * FIELDS];
extern uint8_t colours[6 * FIELDS], marks[64], every_sixteenth[64];
extern rectangle rectangles[RECTANGLES];
extern uint8_t page[RECTANGLES * LINKSHOAR_RECTANGLE_BYTES];
extern uint8_t screen[LINKSHOAR_LIST_BYTES], plan[LINKSHOAR_LIST_BYTES], table[768];
extern _Alignas(64) uint8_t out[1536];
extern volatile uint32_t sink;

#endif
