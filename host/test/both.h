/* One call by the library and one by the second implementation, on what can be lent (compare.h), of the lengths given; a slice of length 0
 * is null. Every member of the answers is compared, and every word and byte lent, with what lies before and past it. */
#ifndef BOTH_H
#define BOTH_H

#include "linkshoar.h"

void both_fill(uint32_t rows, uint32_t first_row, uint32_t end_row, uint32_t first_column, uint32_t end_column, uint16_t mask,
               uint16_t colour, uint32_t persistent, size_t room); /* in fill.c: the planner's own archive has this call alone */
linkshoar_paged both_page(uint32_t rows, uint32_t persistent, size_t length, size_t room); /* in page.c; the answer */
linkshoar_vram both_list_run(linkshoar_vram state, size_t words, size_t serial_words, size_t length); /* the new state */
linkshoar_ran both_list_run_marked(linkshoar_vram state, size_t words, size_t serial_words, size_t marks, size_t length); /* in marks.c */
void both_marks_clear(size_t marks);
linkshoar_marked both_marks_next(size_t marks, uint32_t start);
void both_word_read(size_t words, uint32_t row, uint32_t column, uint32_t strobes);
void both_serial_clock(linkshoar_vram state, size_t serial_words);
void both_panel_run(linkshoar_vram state, size_t serial_words, linkshoar_palette palette, size_t table_bytes, uint32_t clocks,
                    uint32_t blank, size_t room);
void both_panel_run_six(linkshoar_vram state, size_t serial_words, linkshoar_palette palette, size_t table_bytes, uint32_t clocks,
                        uint32_t blank, size_t room);
void both_palette_write(linkshoar_palette state, size_t table_bytes, uint32_t select, uint8_t value);
void both_palette_read(linkshoar_palette state, size_t table_bytes, uint32_t select);
linkshoar_palette both_palette_write_lent(linkshoar_palette state, size_t table_bytes, uint32_t select, uint8_t value); /* the new state */
linkshoar_palette both_palette_read_lent(linkshoar_palette state, size_t table_bytes, uint32_t select);

#endif
