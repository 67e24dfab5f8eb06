/* A second implementation of document 01, and of the change requests that have landed, in plain C, bit by bit, written from the rules and not
 * from the proved code. The test program compares the two. FAULT plants one error: 1 to 6 those that document 01 lists or that earlier
 * versions had, 7 to 17 the Am8150's, 18 to 20 those of a palette read, 21 to 24 those of reverse video, 25 to 29 those of parts of eight
 * bits, 30 to 38 those of stop points, 39 to 46 those of masks left behind, 47 to 55 those of a page, 56 to 68 those of marks of rows, 69 to
 * 78 those of the plain engine, 79 to 96 those of lists in pieces, 97 to 102 results that reach a mark, a number or a mark's pixel, 103 to
 * 150 the Am8159's. Each must be found. */
#ifndef MODEL_H
#define MODEL_H

#include "linkshoar.h"

#ifndef FAULT
#define FAULT 0
#endif

/* A field of a list by its numbers; data is the column mask of a block write, stop a partition's length; what a body does not have is 0. */
typedef struct {
    unsigned tag, length, row, column, data, masking, mask, strobes, half, tap, stop;
} model_field;

model_field model_field_read(const uint8_t *field);
int model_body_bytes(int tag); /* -1 where the tag is unknown */
uint32_t model_given(linkshoar_vram state, size_t words, size_t serial_words); /* 1 to 3, or 0 */
uint32_t model_field_run(linkshoar_vram *s, uint16_t *memory, size_t words, uint16_t *serial, const uint8_t *field,
                         size_t bytes); /* the number that refuses the field at the start of these bytes; where it is 0 its cycle is done */
linkshoar_vram model_vram_fresh(void);
linkshoar_palette model_palette_fresh(void);
linkshoar_filled model_fill(uint32_t rows, uint32_t first_row, uint32_t end_row, uint32_t first_column, uint32_t end_column, uint16_t mask,
                            uint16_t colour, uint32_t persistent, uint8_t *list, size_t length);
linkshoar_paged model_page(uint32_t rows, uint32_t persistent, const uint8_t *rectangles, size_t length, uint8_t *list, size_t room);
linkshoar_ran model_list_run(linkshoar_vram state, uint16_t *memory, size_t words, uint16_t *serial, size_t serial_words,
                             const uint8_t *list, size_t length);
linkshoar_ran model_list_run_marked(linkshoar_vram state, uint16_t *memory, size_t words, uint16_t *serial, size_t serial_words,
                                    uint8_t *marks, size_t marks_bytes, const uint8_t *list, size_t length);
linkshoar_ran model_pencil_run(linkshoar_vram state, uint16_t *memory, size_t words, uint16_t *serial, size_t serial_words,
                               const uint8_t *list, size_t length);
linkshoar_ran model_pencil_run_marked(linkshoar_vram state, uint16_t *memory, size_t words, uint16_t *serial, size_t serial_words,
                                      uint8_t *marks, size_t marks_bytes, const uint8_t *list, size_t length);
uint32_t model_marks_clear(uint8_t *marks, size_t marks_bytes);
linkshoar_marked model_marks_next(const uint8_t *marks, size_t marks_bytes, uint32_t start);
linkshoar_word model_word_read(const uint16_t *memory, size_t words, uint32_t row, uint32_t column, uint32_t strobes);
linkshoar_clocked model_serial_clock(linkshoar_vram state, const uint16_t *serial, size_t serial_words);
linkshoar_shown model_panel_run(linkshoar_vram state, const uint16_t *serial, size_t serial_words, linkshoar_palette palette,
                                const uint8_t *table, size_t table_bytes, uint32_t clocks, uint32_t blank, uint8_t *out, size_t out_bytes);
linkshoar_shown model_panel_run_six(linkshoar_vram state, const uint16_t *serial, size_t serial_words, linkshoar_palette palette,
                                    const uint8_t *table, size_t table_bytes, uint32_t clocks, uint32_t blank, uint8_t *out, size_t out_bytes);
linkshoar_accessed model_palette_write(linkshoar_palette state, uint8_t *table, size_t table_bytes, uint32_t select, uint8_t value);
linkshoar_accessed model_palette_read(linkshoar_palette state, const uint8_t *table, size_t table_bytes, uint32_t select);

/* model_pieces.c */
linkshoar_pieces model_pieces_fresh(void);
linkshoar_taken model_pieces_take(linkshoar_vram state, linkshoar_pieces pieces, uint16_t *memory, size_t words, uint16_t *serial,
                                  size_t serial_words, const uint8_t *piece, size_t length);
linkshoar_taken model_pieces_end(linkshoar_vram state, linkshoar_pieces pieces, const uint16_t *memory, size_t words,
                                 const uint16_t *serial, size_t serial_words);

/* model_controller.c */
linkshoar_controller model_controller_fresh(void);
linkshoar_controlled model_controller_set_top_of_frame(linkshoar_controller state, uint32_t address);
linkshoar_controlled model_controller_pan(linkshoar_controller state, int32_t words);
linkshoar_controlled model_controller_set_offset(linkshoar_controller state, uint32_t offset);
linkshoar_controlled model_controller_set_mode(linkshoar_controller state, uint32_t cycles, uint32_t page, uint32_t update);
linkshoar_controlled model_controller_video(linkshoar_controller state, uint32_t on);
linkshoar_controlled model_controller_horizontal_sync(linkshoar_controller state);
linkshoar_controlled model_controller_vertical_sync(linkshoar_controller state);
linkshoar_fetched model_controller_fetch(linkshoar_controller state);

/* model_colours.c */
linkshoar_colours model_colours_fresh(void);
linkshoar_coloured model_colours_write(linkshoar_colours state, uint16_t *table, size_t words, uint32_t address, uint32_t data);
linkshoar_coloured model_colours_write_low(linkshoar_colours state, uint8_t low);
linkshoar_coloured model_colours_write_high(linkshoar_colours state, uint16_t *table, size_t words, uint32_t address, uint8_t high);
linkshoar_word model_colours_read(const uint16_t *table, size_t words, uint32_t address);
linkshoar_byte model_colours_read_low(const uint16_t *table, size_t words, uint32_t address);
linkshoar_byte model_colours_read_high(const uint16_t *table, size_t words, uint32_t address);
linkshoar_emitted model_colours_pixel(linkshoar_colours state, const uint16_t *table, size_t words, linkshoar_inputs inputs);

#endif
