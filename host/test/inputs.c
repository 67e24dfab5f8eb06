/* Inputs at random for the test programs: states, palettes and lists, valid and damaged. */
#include "compare.h"
#include "inputs.h"

#include <string.h>

enum { MOST_LIST = 4096 };

linkshoar_vram some_vram(void)
{
    linkshoar_vram s;
    memset(&s, 0, sizeof s);
    s.colour = (uint16_t)any();
    s.mask = (uint16_t)any();
    s.persistent = (uint8_t)below(2);
    s.loaded = (uint8_t)!chance(4);
    s.stop = (uint8_t)(chance(3) ? 128 : 16u << below(4));
    s.pointer = (uint8_t)(chance(3) ? s.stop * (1 + below(256u / s.stop)) - 1 - below(3) : any());
    if (s.loaded && chance(2)) {
        s.waiting = 1;
        s.tap = (uint8_t)(below(128) + (s.pointer < 128 ? 128 : 0));
    }
    if (chance(20)) /* a state that no rule allows, or that no state can be */
        switch (below(6)) {
        case 0: s.persistent = (uint8_t)any(); break;
        case 1: s.loaded = (uint8_t)any(); break;
        case 2: s.waiting = (uint8_t)below(4); break;
        case 3: s.tap = (uint8_t)any(); break;
        case 4: s.stop = (uint8_t)(chance(2) ? 8 * below(32) : any()); break;
        default: s.pointer = (uint8_t)any(); break;
        }
    return s;
}

linkshoar_palette some_palette(void)
{
    linkshoar_palette p = {(uint8_t)any(), (uint8_t)below(3), (uint8_t)below(64), (uint8_t)below(64), (uint8_t)below(64), (uint8_t)any()};
    if (chance(4))
        p.address = 255;
    if (chance(20))
        switch (below(4)) {
        case 0: p.phase = (uint8_t)any(); break;
        case 1: p.red = (uint8_t)any(); break;
        case 2: p.green = (uint8_t)any(); break;
        default: p.blue = (uint8_t)any(); break;
        }
    return p;
}

/* ---- lists */

size_t put_field(uint8_t *at, uint32_t rows)
{
    uint16_t row = (uint16_t)below(rows), column = (uint16_t)below(512), data = (uint16_t)any();
    uint8_t masking = (uint8_t)below(2), strobes = (uint8_t)(1 + below(3)), half = (uint8_t)below(2);
    uint16_t mask = (uint16_t)(masking ? any() : 0);
    switch (1 + below(8)) {
    case LINKSHOAR_TAG_WORD_WRITE: return linkshoar_put_word_write(at, row, column, data, masking, mask, strobes);
    case LINKSHOAR_TAG_BLOCK_WRITE: return linkshoar_put_block_write(at, row, column, data, masking, mask, strobes);
    case LINKSHOAR_TAG_LOAD_COLOUR: return linkshoar_put_load_colour(at, data, strobes);
    case LINKSHOAR_TAG_LOAD_MASK: return linkshoar_put_load_mask(at, data, strobes);
    case LINKSHOAR_TAG_RESET_REFRESH: return linkshoar_put_reset_refresh(at);
    case LINKSHOAR_TAG_FULL_TRANSFER: return linkshoar_put_full_transfer(at, row, half, (uint8_t)any());
    case LINKSHOAR_TAG_SPLIT_TRANSFER: return linkshoar_put_split_transfer(at, row, half, (uint8_t)below(128));
    default: return linkshoar_put_stop_points(at, (uint8_t)(16u << below(4)));
    }
}

size_t some_list(uint32_t rows)
{
    size_t bytes = 0, most = chance(50) ? MOST_LIST - 16 : 13 * (1 + below(12)), cut = 0;
    if (chance(30))
        return 0;
    while (bytes < most)
        bytes += put_field(bytes_a + bytes, rows);
    if (chance(2)) /* else half of the lists would leave a mask behind */
        bytes += linkshoar_put_reset_refresh(bytes_a + bytes);
    if (chance(2)) { /* one byte damaged, or the end cut off */
        if (chance(3))
            cut = below(14) % (bytes + 1);
        else
            bytes_a[below((uint32_t)bytes)] = (uint8_t)(chance(2) ? below(11) : any());
    }
    memcpy(bytes_b, bytes_a, bytes);
    return bytes - cut;
}
