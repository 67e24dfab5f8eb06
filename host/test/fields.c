#include "compare.h"
#include "model.h"
#include "tries.h"

#include <string.h>

static const unsigned tags[] = {1, 2, 3, 4, 5, 6, 7, 9}, length[10] = {0, 10, 10, 3, 3, 0, 4, 4, 0, 1};

/* Numbers at random for every member that the tag's body has. */
static model_field some_field(unsigned tag)
{
    model_field f;
    memset(&f, 0, sizeof f);
    f.tag = tag;
    f.length = length[tag];
    if (tag == 1 || tag == 2) {
        f.column = any() & 0xFFFF;
        f.masking = any() & 0xFF;
        f.mask = any() & 0xFFFF;
    }
    if (tag <= 4) {
        f.data = any() & 0xFFFF;
        f.strobes = any() & 0xFF;
    }
    if (tag == 6 || tag == 7) {
        f.half = any() & 0xFF;
        f.tap = any() & 0xFF;
    }
    if (tag <= 2 || tag == 6 || tag == 7)
        f.row = any() & 0xFFFF;
    if (tag == 9)
        f.stop = any() & 0xFF;
    return f;
}

static size_t put(uint8_t *at, model_field f)
{
    uint16_t row = (uint16_t)f.row, column = (uint16_t)f.column, data = (uint16_t)f.data, mask = (uint16_t)f.mask;
    uint8_t masking = (uint8_t)f.masking, strobes = (uint8_t)f.strobes, half = (uint8_t)f.half, tap = (uint8_t)f.tap;
    switch (f.tag) {
    case LINKSHOAR_TAG_WORD_WRITE: return linkshoar_put_word_write(at, row, column, data, masking, mask, strobes);
    case LINKSHOAR_TAG_BLOCK_WRITE: return linkshoar_put_block_write(at, row, column, data, masking, mask, strobes);
    case LINKSHOAR_TAG_LOAD_COLOUR: return linkshoar_put_load_colour(at, data, strobes);
    case LINKSHOAR_TAG_LOAD_MASK: return linkshoar_put_load_mask(at, data, strobes);
    case LINKSHOAR_TAG_RESET_REFRESH: return linkshoar_put_reset_refresh(at);
    case LINKSHOAR_TAG_FULL_TRANSFER: return linkshoar_put_full_transfer(at, row, half, tap);
    case LINKSHOAR_TAG_SPLIT_TRANSFER: return linkshoar_put_split_transfer(at, row, half, tap);
    default: return linkshoar_put_stop_points(at, (uint8_t)f.stop);
    }
}

void try_fields(void)
{
    for (int n = 0; n < 2000; n++)
        for (size_t k = 0; k < sizeof tags / sizeof *tags; k++) {
            model_field f = some_field(tags[k]);
            size_t bytes = 3 + length[tags[k]];
            some_bytes(bytes_a, bytes_b, LINKSHOAR_FIELD_BYTES);
            if (put(bytes_a, f) != bytes)
                differ("the bytes that a function answers which writes a field");
            model_field read = model_field_read(bytes_a);
            if (memcmp(&read, &f, sizeof f)) /* members of one type: nothing lies between them */
                differ("a field that a function of the header writes");
            memcpy(bytes_b, bytes_a, bytes);
            same_bytes("what lies around a field that a function of the header writes", bytes_a, bytes_b, bytes);
        }
}
