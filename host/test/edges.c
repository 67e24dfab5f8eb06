#include "both.h"
#include "compare.h"
#include "tries.h"

#include <string.h>

#define EACH(n, lengths) for (size_t n##_at = 0, n; n##_at < sizeof lengths / sizeof *lengths && (n = lengths[n##_at], 1); n##_at++)

/* Lengths of the slices that have one length or a few: empty, one short, as they should be, one long; and 513 rows. */
static const size_t memories[] = {0, 511, 512, 513, 1024, 512 * 512 - 1, 512 * 512, 512 * 512 + 1, 513 * 512};
static const size_t serials[] = {0, 255, 256, 257};
static const size_t tables[] = {0, 767, 768, 769};

static linkshoar_vram loaded(void)
{
    linkshoar_vram s = linkshoar_vram_fresh();
    s.loaded = 1;
    return s;
}

static void list_edges(void)
{
    uint8_t list[5 * LINKSHOAR_FIELD_BYTES];
    size_t n = linkshoar_put_full_transfer(list, 0, 1, 255);
    n += linkshoar_put_load_colour(list + n, 0xA5C3, LINKSHOAR_STROBES_BOTH);
    n += linkshoar_put_block_write(list + n, 0, 511, 0x8421, LINKSHOAR_MASKING_PLAIN, 0, LINKSHOAR_STROBES_BOTH);
    n += linkshoar_put_word_write(list + n, 0, 0, (uint16_t)any(), LINKSHOAR_MASKING_MASKED, 0x0FF0, LINKSHOAR_STROBES_LOW);
    n += linkshoar_put_split_transfer(list + n, 0, 0, 127);
    memcpy(bytes_a, list, n);
    memcpy(bytes_b, list, n);
    const size_t lengths[] = {0, n - 1, n, n + 1};
    EACH(words, memories)
        EACH(serial, serials)
            EACH(length, lengths)
                both_list_run(linkshoar_vram_fresh(), words, serial, length);
}

static void word_edges(void)
{
    EACH(words, memories) {
        both_word_read(words, 0, 511, LINKSHOAR_STROBES_BOTH);
        both_word_read(words, 1, 0, LINKSHOAR_STROBES_BOTH);
        both_word_read(words, 511, 511, LINKSHOAR_STROBES_HIGH);
        both_word_read(words, 512, 0, LINKSHOAR_STROBES_LOW);
    }
}

static void fill_edges(void)
{
    const size_t lengths[] = {0, 31, 32, 33};
    EACH(room, lengths) {
        both_fill(64, 3, 4, 2, 7, 0x00FF, 0x0011, 0, room); /* 32 bytes */
        both_fill(64, 3, 3, 2, 7, 0x00FF, 0x0011, 0, room); /* none */
        both_fill(513, 3, 4, 2, 7, 0x00FF, 0x0011, 0, room);
    }
}

static void panel_edges(void)
{
    static const uint32_t clocks[] = {0, 1, 512, 513};
    EACH(serial, serials) {
        both_serial_clock(loaded(), serial);
        EACH(table, tables)
            for (int c = 0; c < 4; c++)
                for (uint32_t blank = 0; blank < 2; blank++) {
                    const size_t full = 3 * clocks[c], rooms[] = {0, full ? full - 1 : 0, full, full + 1};
                    EACH(room, rooms) {
                        both_panel_run(loaded(), serial, linkshoar_palette_fresh(), table, clocks[c], blank, room);
                        both_panel_run_six(loaded(), serial, linkshoar_palette_fresh(), table, clocks[c], blank, room);
                    }
                }
    }
}

/* All 65,536 words, 256 to a register by their high byte, through pixel masks that keep all bits, none and some, at both
 * widths. */
static void every_word(void)
{
    static const uint8_t masks[] = {255, 0, 1, 128, 0x0F, 0xF0, 0x55, 0xAA};
    linkshoar_palette palette = linkshoar_palette_fresh();
    for (unsigned e = 0; e < 256; e++) { /* no two entries alike */
        table_a[3 * e] = table_b[3 * e] = (uint8_t)(e % 64);
        table_a[3 * e + 1] = table_b[3 * e + 1] = (uint8_t)(e / 64);
    }
    for (unsigned high = 0; high < 256; high++) {
        for (unsigned low = 0; low < 256; low++)
            serial_a[low] = serial_b[low] = (uint16_t)(256 * high + low);
        for (size_t m = 0; m < sizeof masks; m++) {
            palette.mask = masks[m];
            both_panel_run(loaded(), 256, palette, 768, 256, 0, 768);
            both_panel_run_six(loaded(), 256, palette, 768, 256, 0, 768);
        }
    }
}

/* All 256 bytes of a table as red, green and blue, at both widths: a step further for each, so that no two of an entry are alike. */
static void every_part(void)
{
    for (unsigned e = 0; e < 256; e++) {
        serial_a[e] = serial_b[e] = (uint16_t)e;
        for (unsigned part = 0; part < 3; part++)
            table_a[3 * e + part] = table_b[3 * e + part] = (uint8_t)(e + part);
    }
    both_panel_run(loaded(), 256, linkshoar_palette_fresh(), 768, 256, 0, 768);
    both_panel_run_six(loaded(), 256, linkshoar_palette_fresh(), 768, 256, 0, 768);
}

static size_t put_kind(uint8_t *at, unsigned kind)
{
    switch (kind) {
    case 0: return linkshoar_put_load_mask(at, 0x0FF0, LINKSHOAR_STROBES_LOW);
    case 1: return linkshoar_put_reset_refresh(at);
    case 2: return linkshoar_put_load_colour(at, 0xA5C3, LINKSHOAR_STROBES_BOTH);
    case 3: return linkshoar_put_word_write(at, 0, 7, 0x5A3C, LINKSHOAR_MASKING_MASKED, 0x00FF, LINKSHOAR_STROBES_BOTH);
    default: return linkshoar_put_load_colour(at, 0xA5C3, 0);
    }
}

/* Every list of up to five fields, each a mask load, a reset refresh, a colour load, a masked write, or a colour load that is refused, from a
 * state that is persistent and from one that is not; and a fill planned from the state that comes back. */
static void every_mask_list(void)
{
    enum { KINDS = 5, FIELDS = 5 };
    unsigned lists = 1;
    for (unsigned fields = 0; fields <= FIELDS; fields++, lists *= KINDS)
        for (unsigned list = 0; list < 2 * lists; list++) {
            linkshoar_vram s = linkshoar_vram_fresh();
            size_t n = 0;
            for (unsigned k = 0, kinds = list / 2; k < fields; k++, kinds /= KINDS)
                n += put_kind(bytes_a + n, kinds % KINDS);
            memcpy(bytes_b, bytes_a, n);
            memory_a[7] = memory_b[7] = 0;
            s.persistent = (uint8_t)(list % 2);
            s.mask = 0x3333;
            linkshoar_vram after = both_list_run(s, 512, 256, n);
            if (after.persistent > s.persistent)
                differ("linkshoar_list_run, which left its mask behind");
            both_fill(1, 0, 1, 7, 8, 0xFFFF, 0x1234, after.persistent, LINKSHOAR_FIELD_BYTES);
        }
}

/* A field of every tag, with a body of each length that some tag has. */
static void every_tag(void)
{
    static const uint8_t bodies[] = {0, 1, 3, 4, 10};
    for (unsigned tag = 0; tag < 256; tag++)
        for (size_t b = 0; b < sizeof bodies; b++) {
            memset(bytes_a, 1, LINKSHOAR_FIELD_BYTES);
            bytes_a[0] = (uint8_t)tag, bytes_a[1] = 0, bytes_a[2] = bodies[b];
            memcpy(bytes_b, bytes_a, LINKSHOAR_FIELD_BYTES);
            both_list_run(loaded(), 1024, 256, 3u + bodies[b]);
        }
}

/* Every length, 0 to 255, in a field and in a state, with the pointer at 15 and a tap waiting. */
static void every_length(void)
{
    for (unsigned length = 0; length < 256; length++) {
        linkshoar_vram s = loaded();
        size_t n = linkshoar_put_stop_points(bytes_a, (uint8_t)length);
        memcpy(bytes_b, bytes_a, n);
        s.pointer = 15;
        s.waiting = 1;
        s.tap = 133;
        both_list_run(s, 512, 256, n);
        s.stop = (uint8_t)length;
        both_list_run(s, 512, 256, 0);
        both_serial_clock(s, 256);
        both_panel_run(s, 256, linkshoar_palette_fresh(), 768, 0, 0, 0);
        both_panel_run_six(s, 256, linkshoar_palette_fresh(), 768, 1, 0, 3);
    }
}

/* A run from every place, in partitions of each length, with a tap waiting and with none: past several stop points, and round. */
static void every_place(void)
{
    for (unsigned i = 0; i < 256; i++)
        serial_a[i] = serial_b[i] = (uint16_t)i;
    for (unsigned length = 16; length <= 128; length *= 2)
        for (unsigned pointer = 0; pointer < 256; pointer++)
            for (unsigned waiting = 0; waiting < 2; waiting++) {
                linkshoar_vram s = loaded();
                s.stop = (uint8_t)length;
                s.pointer = (uint8_t)pointer;
                s.waiting = (uint8_t)waiting;
                s.tap = (uint8_t)(waiting ? (pointer < 128 ? 128 : 0) + pointer * 7 % 128 : 0);
                both_serial_clock(s, 256);
                both_panel_run(s, 256, linkshoar_palette_fresh(), 768, 300, 0, 900);
            }
}

static void palette_edges(void)
{
    linkshoar_palette last = linkshoar_palette_fresh();
    last.address = 255;
    last.phase = 2;
    EACH(table, tables)
        for (uint32_t select = 0; select < 5; select++) {
            both_palette_write(last, table, select, 255);
            both_palette_write_lent(last, table, select, 255);
            both_palette_read(last, table, select);
            both_palette_read_lent(last, table, select);
        }
}

void try_edges(void)
{
    list_edges();
    word_edges();
    fill_edges();
    page_edges();
    marks_edges();
    pencil_edges();
    pieces_edges();
    panel_edges();
    every_word();
    every_part();
    every_mask_list();
    every_tag();
    every_length();
    every_place();
    palette_edges();
    colours_edges();
}
