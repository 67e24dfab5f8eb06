#include "both.h"
#include "compare.h"
#include "model.h"
#include "tries.h"

#include <string.h>

void both_fill(uint32_t rows, uint32_t first_row, uint32_t end_row, uint32_t first_column, uint32_t end_column, uint16_t mask,
               uint16_t colour, uint32_t persistent, size_t room)
{
    linkshoar_filled a = linkshoar_fill(rows, first_row, end_row, first_column, end_column, mask, colour, persistent, bytes_of(bytes_a, room), room);
    linkshoar_filled b = model_fill(rows, first_row, end_row, first_column, end_column, mask, colour, persistent, bytes_of(bytes_b, room), room);
    count(b.number);
    if (a.number != b.number || a.bytes != b.bytes || a.cycles != b.cycles)
        differ("linkshoar_fill");
    same_bytes("the list of linkshoar_fill", bytes_a, bytes_b, room);
}

void try_fill(void)
{
    uint32_t rows = chance(8) ? about(513) : 1 + below(512), first_row = chance(8) ? about(513) : below(rows + 1 ? rows + 1 : 1);
    uint32_t end_row = chance(8) ? about(513) : first_row + below(5), first_column = chance(8) ? about(513) : below(513);
    uint32_t end_column = chance(8) ? about(513) : first_column + below(14), persistent = chance(10) ? (chance(2) ? 256 : any()) : 0;
    uint16_t mask = (uint16_t)(chance(8) ? 0 : any()), colour = (uint16_t)any();
    if (chance(300))
        first_row = 0, end_row = rows, first_column = 0, end_column = 512;
    size_t room = chance(3) ? below(300) : 2000, written = 0;
    if (chance(4)) { /* just room enough, or one byte too little */
        written = model_fill(rows, first_row, end_row, first_column, end_column, mask, colour, persistent, bytes_b, LINKSHOAR_LIST_BYTES).bytes;
        room = written - (written ? below(2) : 0);
    }
    memset(bytes_a, 9, written);
    memset(bytes_b, 9, written);
    some_bytes(bytes_a, bytes_b, room < 2000 ? room : 2000);
    both_fill(rows, first_row, end_row, first_column, end_column, mask, colour, persistent, room);
}
