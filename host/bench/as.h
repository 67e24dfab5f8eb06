/* The public header with the calls that are measured under another name: compiled with AS=plain_o2 a file that says linkshoar_list_run
 * defines, or calls, plain_o2_list_run. So the header itself declares what the library is compared with, and whoever calls, the test
 * program too, is written once. Without AS the names are the library's. */
#ifndef AS_H
#define AS_H

#ifdef AS
#define AS_JOIN_(as, name) as##_##name
#define AS_JOIN(as, name) AS_JOIN_(as, name)
#define linkshoar_fill AS_JOIN(AS, fill)
#define linkshoar_page AS_JOIN(AS, page)
#define linkshoar_list_run AS_JOIN(AS, list_run)
#define linkshoar_list_run_marked AS_JOIN(AS, list_run_marked)
#define linkshoar_marks_clear AS_JOIN(AS, marks_clear)
#define linkshoar_marks_next AS_JOIN(AS, marks_next)
#define linkshoar_serial_clock AS_JOIN(AS, serial_clock)
#define linkshoar_panel_run AS_JOIN(AS, panel_run)
#define linkshoar_panel_run_six AS_JOIN(AS, panel_run_six)
#define linkshoar_palette_write AS_JOIN(AS, palette_write)
#define linkshoar_palette_read AS_JOIN(AS, palette_read)
#define linkshoar_works AS_JOIN(AS, works) /* works.h */
#endif

#include "linkshoar.h"

/* FAULT plants one error in plain.c and in tuned.c, which the test program must find: 1 a block write keeps the low column bits, 2 a plain
 * write is accepted with a mask, 3 a waiting tap is not used up, 4 the pixel mask is ignored, 5 the palette's phase is kept across an
 * address write, 6 a read of blue takes no entry, 7 a fill goes by blocks where words are no more cycles, 8 a high byte of 255 is a
 * mark, 9 a part of eight bits has no sixteenth, 10 a reset refresh keeps the partition's length, 11 a waiting tap is taken at the end of
 * a half only, 12 a list that leaves its mask behind is accepted, 13 it is refused at its first mask load, 14 a page is written fill by fill
 * until the room ends, 15 a rectangle's mask and colour are exchanged, 16 word writes are not marked, 17 a refused list marks, 18 marks are
 * searched from the row after the start. */
#ifndef FAULT
#define FAULT 0
#endif

#endif
