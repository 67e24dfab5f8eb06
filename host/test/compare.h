/* What the test programs share: numbers at random from one seed, what is lent, what was called, and what to do about a difference. */
#ifndef COMPARE_H
#define COMPARE_H

#include "linkshoar.h"

enum { NUMBERS = 23 }; /* 0 to 22 are given */

extern unsigned long long calls, seen[NUMBERS];

void sow(uint64_t from); /* also fills all that can be lent */
uint32_t any(void);
uint32_t below(uint32_t n);
int chance(uint32_t n); /* one in n */
uint32_t about(uint32_t n); /* mostly below n, and else at its edge or past a narrower width */

/* What can be lent, _a to the library and _b to the second implementation. The two are the same before each call and must be the same after
 * it, also before and past the part that is lent. */
enum { MOST_WORDS = 513 * 512, MOST_SERIAL = 300, MOST_TABLE = 800, AROUND = 512 };
extern uint16_t *const memory_a, *const memory_b, *const serial_a, *const serial_b;
extern uint8_t *const table_a, *const table_b; /* the palette's, a page's rectangles, or marks */
extern uint8_t *const bytes_a, *const bytes_b; /* a list, or a run's answer */

void some_words(uint16_t *a, uint16_t *b, size_t n);
void some_bytes(uint8_t *a, uint8_t *b, size_t n);
uint16_t *words_of(uint16_t *at, size_t n); /* the slice as it is lent: null where it is empty */
uint8_t *bytes_of(uint8_t *at, size_t n);

void count(uint32_t number);
void differ(const char *what); /* prints it and ends the program with 1 */
int vram_same(linkshoar_vram a, linkshoar_vram b); /* member by member: the bytes between members are not determined */
int palette_same(linkshoar_palette a, linkshoar_palette b);
int pieces_same(linkshoar_pieces a, linkshoar_pieces b);
void same_words(const char *what, const uint16_t *a, const uint16_t *b, size_t n); /* and AROUND words before and past them */
void same_bytes(const char *what, const uint8_t *a, const uint8_t *b, size_t n);
void same_all(void); /* everything that can be lent, to its end */

#endif
