#include "cutting.h"

#include "compare.h"

#include <string.h>

enum { MOST_BYTES = 65536 };

size_t some_piece(size_t left)
{
    size_t n;
    switch (below(4)) {
    case 0: n = below(3); break;
    case 1: n = below(14); break;
    case 2: n = 1 + below(30); break;
    default: n = below((uint32_t)left + 1); break;
    }
    return n < left ? n : left;
}

/* All of the list lent to _b, piece by piece, and the last call. Once a field is refused every later call says so. */
static linkshoar_taken take_all(linkshoar_vram state, size_t words, size_t serial_words, size_t length, size_t first, size_t each)
{
    uint16_t *memory = words_of(memory_b, words), *serial = words_of(serial_b, serial_words);
    linkshoar_taken r = {.state = state, .pieces = linkshoar_pieces_fresh()}, was = r;
    size_t at = 0, n = first < length ? first : length;
    do {
        r = linkshoar_pieces_take(r.state, r.pieces, memory, words, serial, serial_words, bytes_of(bytes_b + at, n), n);
        count(r.number);
        if (was.number && (r.number != was.number || r.place != was.place || !vram_same(r.state, was.state)))
            differ("a piece after a refusal");
        was = r;
        at += n;
        n = each == 0 ? some_piece(length - at) : each < length - at ? each : length - at;
    } while (at < length);
    r = linkshoar_pieces_end(r.state, r.pieces, memory, words, serial, serial_words);
    count(r.number);
    if (!vram_same(r.state, was.state) || (was.number && (r.number != was.number || r.place != was.place)))
        differ("the last call of a list in pieces");
    for (size_t i = 0; i < sizeof r.pieces.held; i++)
        if (r.pieces.held[i])
            differ("the bytes held after the last call");
    if (r.pieces.left || r.pieces.start || r.pieces.number || r.pieces.count || r.pieces.open)
        differ("the pieces after the last call");
    return r;
}

/* So many bytes of the list lent to _a, run whole. Where they leave the mask behind a reset refresh is put behind them, and one comes after
 * what was drawn in pieces too: the mask is persistent there. */
static void draw_before(linkshoar_vram *a, linkshoar_vram *b, size_t words, size_t length)
{
    static uint8_t list[MOST_BYTES + 3];
    linkshoar_ran r = linkshoar_list_run(*a, memory_a, words, serial_a, 256, bytes_of(bytes_a, length), length);
    if (r.number == LINKSHOAR_MASK_LEFT_BEHIND) {
        if (!b->persistent)
            differ("the mask of a list in pieces that leaves it behind");
        memcpy(list, bytes_a, length);
        size_t reset = linkshoar_put_reset_refresh(list + length);
        r = linkshoar_list_run(*a, memory_a, words, serial_a, 256, list, length + reset);
        *b = linkshoar_list_run(*b, memory_b, words, serial_b, 256, list + length, reset).state;
    }
    if (r.number)
        differ("the fields before the one refused");
    *a = r.state;
}

void same_cut(linkshoar_vram state, size_t words, size_t serial_words, size_t length, size_t first, size_t each)
{
    linkshoar_ran a = linkshoar_list_run(state, words_of(memory_a, words), words, words_of(serial_a, serial_words), serial_words,
                                         bytes_of(bytes_a, length), length);
    linkshoar_taken b = take_all(state, words, serial_words, length, first, each);
    count(a.number);
    if (a.number != b.number || a.place != b.place)
        differ("number and place of a list in pieces, and those of the whole list");
    if (a.number > LINKSHOAR_REGISTER_LENGTH)
        draw_before(&a.state, &b.state, words, a.number == LINKSHOAR_MASK_LEFT_BEHIND ? length : (size_t)a.place);
    if (!vram_same(a.state, b.state))
        differ("the state after a list in pieces, and after the whole list");
    same_words("the memory after a list in pieces, and after the whole list", memory_a, memory_b, words);
    same_words("the serial register after a list in pieces, and after the whole list", serial_a, serial_b, serial_words);
    same_bytes("the bytes of a list in pieces", bytes_a, bytes_b, length);
}
