/* Pages: rectangles at random, whole and damaged; the bytes of a rectangle; and against single fills with the buffer moved along. */
#include "both.h"
#include "compare.h"
#include "model.h"
#include "tries.h"

#include <string.h>

enum { MOST = 40, BYTES = LINKSHOAR_RECTANGLE_BYTES, MOST_ROOM = 20000 };

/* The rectangles stand where else the palette's table does. */
linkshoar_paged both_page(uint32_t rows, uint32_t persistent, size_t length, size_t room)
{
    linkshoar_paged a = linkshoar_page(rows, persistent, bytes_of(table_a, length), length, bytes_of(bytes_a, room), room);
    linkshoar_paged b = model_page(rows, persistent, bytes_of(table_b, length), length, bytes_of(bytes_b, room), room);
    count(b.number);
    if (a.number != b.number || a.place != b.place || a.bytes != b.bytes || a.cycles != b.cycles)
        differ("linkshoar_page");
    same_bytes("the list of linkshoar_page", bytes_a, bytes_b, room);
    same_bytes("the rectangles of linkshoar_page", table_a, table_b, length);
    return b;
}

static size_t put_some(uint8_t *at, uint32_t rows)
{
    uint32_t row = below(rows + 1), column = below(513), height = below(4), width = below(12);
    uint32_t end_row = chance(40) ? below(600) : row + (row + height > rows ? rows - row : height);
    uint32_t end_column = chance(40) ? below(600) : column + (column + width > 512 ? 512 - column : width);
    return linkshoar_put_rectangle(at, (uint16_t)row, (uint16_t)end_row, (uint16_t)column, (uint16_t)end_column,
                                   (uint16_t)(chance(8) ? 0 : any()), (uint16_t)any());
}

/* A page for both: how many bytes of it are lent. */
static size_t some_page(uint32_t rows)
{
    size_t length = 0, cut = 0;
    for (uint32_t n = chance(4) ? below(3) : below(MOST + 1); n; n--)
        length += put_some(table_a + length, rows);
    if (length && chance(3)) { /* one byte damaged, or the end cut off */
        if (chance(3))
            cut = below(16) % (length + 1);
        else {
            size_t header = BYTES * below((uint32_t)length / BYTES) + below(3), byte = below((uint32_t)length);
            table_a[chance(2) ? header : byte] = (uint8_t)(chance(2) ? below(14) : any());
        }
    }
    memcpy(table_b, table_a, length);
    return length - cut;
}

/* What single calls leave, with the buffer moved along. */
static void same_singly(uint32_t rows, size_t length, linkshoar_paged page)
{
    static uint8_t list[MOST_ROOM];
    size_t at = 0, cycles = 0;
    for (size_t i = 0; i < length; i += BYTES) {
        uint32_t n[6];
        for (int k = 0; k < 6; k++)
            n[k] = 256u * table_b[i + 3 + 2 * k] + table_b[i + 4 + 2 * k];
        linkshoar_filled f = linkshoar_fill(rows, n[0], n[1], n[2], n[3], (uint16_t)n[4], (uint16_t)n[5], 0, list + at, sizeof list - at);
        if (f.number)
            differ("a single fill of a page");
        at += f.bytes, cycles += f.cycles;
    }
    if (at != page.bytes || cycles != page.cycles || memcmp(list, bytes_a, at))
        differ("linkshoar_page, and its fills called one by one");
}

void try_page(void)
{
    uint32_t rows = chance(12) ? about(513) : 1 + below(512), persistent = chance(10) ? (chance(2) ? 256 : any()) : 0;
    size_t length = some_page(rows < 1 || rows > 512 ? 512 : rows), room = chance(3) ? below(300) : MOST_ROOM;
    some_bytes(bytes_a, bytes_b, 2000);
    if (chance(3)) { /* just room enough, or one byte too little */
        size_t needed = model_page(rows, persistent, table_b, length, bytes_b, MOST_ROOM).bytes;
        room = needed - (needed ? below(2) : 0);
        memcpy(bytes_b, bytes_a, MOST_ROOM);
    }
    linkshoar_paged page = both_page(rows, persistent, length, room);
    if (!page.number)
        same_singly(rows, length, page);
}

/* A rectangle's bytes, written out. */
static void rectangle_bytes(void)
{
    static const uint8_t said[BYTES] = {8, 0, 12, 1, 2, 3, 4, 5, 6, 7, 8, 9, 10, 11, 12};
    uint8_t put[BYTES];
    if (linkshoar_put_rectangle(put, 0x0102, 0x0304, 0x0506, 0x0708, 0x090A, 0x0B0C) != BYTES || memcmp(put, said, BYTES))
        differ("a rectangle that linkshoar_put_rectangle writes");
}

/* So many full screens that a sum of 32 bits, 685,612, would be within the room. */
static void long_page(void)
{
    enum { SCREENS = 5042 };
    static uint8_t rectangles[SCREENS * BYTES];
    for (size_t n = 0; n < SCREENS; n++)
        linkshoar_put_rectangle(rectangles + BYTES * n, 0, 512, 0, 512, 0xFFFF, (uint16_t)n);
    linkshoar_paged r = linkshoar_page(512, 0, rectangles, sizeof rectangles, bytes_a, LINKSHOAR_LIST_BYTES);
    count(r.number);
    if (r.number != LINKSHOAR_BUFFER_SHORT || r.place || r.bytes || r.cycles)
        differ("linkshoar_page of five thousand screens");
    same_bytes("the list of linkshoar_page of five thousand screens", bytes_a, bytes_b, LINKSHOAR_LIST_BYTES);
}

/* Document 01's worked fill and the same one row down: 64 bytes. Lengths and rooms from none to more than enough; each of 2, 4, 12, 13 and 15
 * with the others beside it. */
void page_edges(void)
{
    const size_t lengths[] = {0, 1, 2, 3, 14, 15, 16, 29, 30, 31}, rooms[] = {0, 31, 32, 33, 63, 64, 65};
    rectangle_bytes();
    for (unsigned wrong = 0; wrong < 32; wrong++) {
        linkshoar_put_rectangle(table_a, 3, 4, 2, wrong & 1 ? 513 : 7, 0x00FF, 0x0011);
        linkshoar_put_rectangle(table_a + BYTES, wrong & 2 ? 6 : 4, 5, 2, 7, 0x00FF, 0x0011);
        table_a[BYTES] = wrong & 4 ? LINKSHOAR_TAG_WORD_WRITE : LINKSHOAR_TAG_RECTANGLE;
        table_a[30] = 0; /* the start of a third */
        memcpy(table_b, table_a, 31);
        for (size_t l = 0; l < sizeof lengths / sizeof *lengths; l++)
            for (size_t m = 0; m < sizeof rooms / sizeof *rooms; m++) {
                some_bytes(bytes_a, bytes_b, 65); /* so that a byte written shows */
                both_page(wrong & 8 ? 513 : 64, wrong & 16 ? 256 : 0, lengths[l], rooms[m]);
            }
    }
    long_page();
}
