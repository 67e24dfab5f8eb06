/* A list cut into pieces, against the whole-list call: the library alone. */
#ifndef CUTTING_H
#define CUTTING_H

#include "linkshoar.h"

/* How many of the bytes that are left the next piece has, at random: often few, also none. */
size_t some_piece(size_t left);

/* The list lent (compare.h) run whole, and taken in pieces by the library: number and place of the last call are the whole run's, and so is
 * what it leaves where it is accepted; where it is refused, that is what the fields before draw. first: the bytes of the first piece; each:
 * those of every other, at random where it is 0. */
void same_cut(linkshoar_vram state, size_t words, size_t serial_words, size_t length, size_t first, size_t each);

#endif
