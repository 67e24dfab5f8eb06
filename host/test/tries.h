/* What the test program tries beside the calls of test.c. */
#ifndef TRIES_H
#define TRIES_H

void try_fill(void);       /* fill.c: the planner's call */
void try_page(void);       /* page.c: a page of fills, also against its fills called one by one */
void page_edges(void);     /* page.c: pages and rooms of every length about that of one and two rectangles, every pair of refusals */
void try_marks(void);      /* marks.c: a list with marks, then the marks searched and cleared */
void try_link(void);       /* marks.c: a link that sends the marked rows alone, whose copy must be the memory */
void marks_edges(void);    /* marks.c: every row marked alone, every length about 64, every pair of refusals */
void try_pencil(void);     /* pencil.c: a list on the plain engine, against the second implementation and against the fast engine */
void pencil_edges(void);   /* pencil.c: every bit of a column mask in every column, with every strobe and mask; every length about the right one */
void try_pieces(void);     /* pieces.c: lists in pieces, one after the other, also refused ones, with damaged calls between */
void try_cutting(void);    /* pieces.c: a list cut at random, against the library's own whole-list call */
void pieces_edges(void);   /* pieces.c: every tag cut in every place, held in part and near the last byte that a list may have; every member
                              of the pieces at its edge and past it; every length about the right one */
void try_edges(void);      /* edges.c: every slice of every call empty, one short and one long, a memory of 513 rows; every word shown, every
                              byte as each part at both widths; a field of every tag; every partition length, and a run from every place */
void try_fields(void);     /* fields.c: the header's functions that write a field, against the second implementation's reading of it */
void try_saved(void);      /* saved.c: a palette saved by reading, written back and compared with the table's own bytes */
void try_controller(void); /* controller.c: a random session of the Am8150 */
void try_frame(void);      /* controller.c: frames of the Am8150, against the address of each word in closed form */
void try_colours(void);    /* colours.c: a random session of the Am8159 */
void try_pipe(void);       /* colours.c: pixels with writes between them, each output against what was asked for three pixels before */
void colours_edges(void);  /* colours.c: the sheet's function table row by row; every address written and read in both widths; every length,
                              address and datum about the right one, with every pair of refusals; levels of every kind together */

#endif
