/* Inputs at random for the test programs. */
#ifndef INPUTS_H
#define INPUTS_H

#include "linkshoar.h"

linkshoar_vram some_vram(void); /* now and then one that the rules exclude */
linkshoar_palette some_palette(void);
size_t put_field(uint8_t *at, uint32_t rows); /* a field that is not refused, but for a split transfer with none before; how many bytes */
size_t some_list(uint32_t rows); /* a list for both (compare.h), half of them damaged; how many bytes of it are lent */

#endif
