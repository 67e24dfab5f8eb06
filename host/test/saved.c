/* The service tool's two jobs: a palette is saved by reading it, and comes back by writing it. What is read, and the table written back, are
 * compared with the table's own bytes. */
#include "compare.h"
#include "tries.h"

enum { BYTES = LINKSHOAR_TABLE_BYTES };

/* An access that must be done. */
static linkshoar_accessed done(linkshoar_accessed r, const char *what)
{
    count(r.number);
    if (r.number != LINKSHOAR_DONE)
        differ(what);
    return r;
}

static linkshoar_palette save(linkshoar_palette p, uint8_t *table, uint8_t *saved)
{
    p = done(linkshoar_palette_write(p, table, BYTES, LINKSHOAR_SELECT_READ_ADDRESS, 0), "the address of a palette that is saved").state;
    for (int i = 0; i < BYTES; i++) {
        linkshoar_accessed r = done(linkshoar_palette_read(p, table, BYTES, LINKSHOAR_SELECT_COLOUR), "a palette that is saved");
        saved[i] = r.byte;
        p = r.state;
    }
    return p;
}

static void write_back(linkshoar_palette p, uint8_t *table, const uint8_t *saved)
{
    p = done(linkshoar_palette_write(p, table, BYTES, LINKSHOAR_SELECT_ADDRESS, 0), "the address of a palette that is written back").state;
    for (int i = 0; i < BYTES; i++)
        p = done(linkshoar_palette_write(p, table, BYTES, LINKSHOAR_SELECT_COLOUR, saved[i]), "a palette that is written back").state;
}

void try_saved(void)
{
    uint8_t table[BYTES], saved[BYTES], other[BYTES];
    linkshoar_palette p = {(uint8_t)any(), (uint8_t)below(3), (uint8_t)below(64), (uint8_t)below(64), (uint8_t)below(64), (uint8_t)any()};
    for (int i = 0; i < BYTES; i++)
        table[i] = (uint8_t)any(), other[i] = (uint8_t)any();
    p = save(p, table, saved);
    write_back(p, other, saved);
    for (int i = 0; i < BYTES; i++) {
        if (saved[i] != table[i] % 64)
            differ("the bytes of a palette that was saved");
        if (other[i] != table[i] % 64)
            differ("the table of a palette that was written back");
    }
}
