/* Lists in pieces, from change request M-109: byte after byte, however they are cut. */
#include "model.h"

#include <string.h>

/* The offset that no byte of a list has. */
static const uint64_t LIMIT = 4294967295;

/* How many bytes the field has that begins so; 3 as long as its header is not whole, 0 where no field begins so. */
static unsigned needed(const uint8_t *held, unsigned count)
{
    if (count < 3)
        return 3;
    int body = model_body_bytes(held[0]);
    return body >= 0 && 256 * held[1] + held[2] == body ? 3 + (unsigned)body : 0;
}

/* Whether pieces can make this. */
static int allowed(linkshoar_pieces p)
{
    unsigned whole = FAULT == 94; /* a field's last byte held, so up to 13 */
    for (unsigned i = p.count; i < 13; i++)
        if (p.held[i] && FAULT != 90) /* the spare bytes not looked at */
            return 0;
    if (p.number) {
        int refusal = (p.number >= 4 && p.number <= 10) || p.number == 19 || (FAULT == 89 && p.number == 11); /* 11 accepted */
        return refusal && !p.count && !p.open && !p.left;
    }
    if (p.count > 12 + whole || p.count >= needed(p.held, p.count) + whole)
        return 0;
    if (p.start + (uint64_t)p.count > LIMIT + (FAULT == 87)) /* one byte too many */
        return 0;
    if (p.open == 0)
        return p.left == 0;
    return p.open == 1 && p.left < p.start + (uint64_t)(FAULT == 88); /* the offset of the unfinished field itself accepted */
}

/* The answer before anything is taken. */
static linkshoar_taken given(linkshoar_vram state, linkshoar_pieces pieces, size_t words, size_t serial_words)
{
    linkshoar_taken r;
    memset(&r, 0, sizeof r);
    r.state = state;
    r.pieces = pieces;
    r.number = allowed(pieces) ? model_given(state, words, serial_words) : 1;
    return r;
}

static void refuse(linkshoar_pieces *p, uint32_t number)
{
    linkshoar_pieces was = *p;
    memset(p, 0, sizeof *p);
    p->number = number;
    p->start = was.start;
#if FAULT == 93 /* the open mask load kept */
    p->open = was.open;
    p->left = was.left;
#endif
}

static void take_byte(linkshoar_taken *r, uint16_t *memory, size_t words, uint16_t *serial, uint8_t byte)
{
    linkshoar_pieces *p = &r->pieces;
    if (p->number)
        return;
    if (p->start + (uint64_t)p->count >= LIMIT - (FAULT == 86) /* one byte too early */
        || (FAULT == 94 && p->count >= needed(p->held, p->count))) {
        refuse(p, 4);
        return;
    }
    p->held[p->count++] = byte;
    unsigned bytes = needed(p->held, p->count);
    if (FAULT == 79 && bytes == 0 && p->count == 3) /* a header judged with the byte after it */
        return;
    if (p->count < bytes)
        return;
    uint32_t number = bytes ? model_field_run(&r->state, memory, words, serial, p->held, bytes) : 4;
    if (number) {
        refuse(p, number);
        return;
    }
    if (p->held[0] == 4) {
        p->open = 1;
        p->left = p->start;
    } else if (p->held[0] == 5 && FAULT != 92) { /* a reset refresh that does not close */
        p->open = 0;
        p->left = 0;
    }
    p->start += bytes;
    memset(p->held, 0, sizeof p->held);
    p->count = 0;
}

linkshoar_pieces model_pieces_fresh(void)
{
    linkshoar_pieces p;
    memset(&p, 0, sizeof p);
    return p;
}

linkshoar_taken model_pieces_take(linkshoar_vram state, linkshoar_pieces pieces, uint16_t *memory, size_t words, uint16_t *serial,
                                  size_t serial_words, const uint8_t *piece, size_t length)
{
    linkshoar_taken r = given(state, pieces, words, serial_words);
    if (r.number)
        return r;
#if FAULT == 80 /* the refusal forgotten by the next piece */
    r.pieces.number = 0;
#endif
#if FAULT == 96 /* a piece with a refused field draws nothing */
    static uint16_t before[512 * 512];
    memcpy(before, memory, 2 * words);
#endif
    for (size_t i = 0; i < length; i++)
        take_byte(&r, memory, words, serial, piece[i]);
#if FAULT == 96
    if (r.pieces.number) {
        r.state = state;
        memcpy(memory, before, 2 * words);
    }
#endif
#if FAULT == 85 /* the last byte held is lost at the piece's end */
    if (length && r.pieces.count)
        r.pieces.held[--r.pieces.count] = 0;
#endif
    r.number = r.pieces.number;
    r.place = r.number ? r.pieces.start : 0;
    if (FAULT == 81 && r.number && !pieces.number) /* the place counted from the piece's first byte */
        r.place -= pieces.start + pieces.count;
    if (FAULT == 83 && r.pieces.open && !r.pieces.count) { /* 20 given by a piece */
        r.number = 20;
        r.place = r.pieces.left;
    }
    return r;
}

linkshoar_taken model_pieces_end(linkshoar_vram state, linkshoar_pieces pieces, const uint16_t *memory, size_t words,
                                 const uint16_t *serial, size_t serial_words)
{
    linkshoar_taken r = given(state, pieces, words, serial_words);
    (void)memory, (void)serial;
    if (r.number) {
        if (FAULT == 84 && allowed(pieces)) /* 1 to 3 end the list */
            r.pieces = model_pieces_fresh();
        return r;
    }
    if (pieces.number) {
        r.number = pieces.number;
        r.place = pieces.start;
    } else if (pieces.count && (FAULT != 91 || !pieces.open)) { /* 20 before 4 */
        r.number = 4;
        r.place = pieces.start;
    } else if (pieces.open) {
        r.number = 20;
        r.place = pieces.left;
    }
    if (FAULT == 82 && !pieces.number) /* the list kept open */
        return r;
    if (FAULT == 95 && pieces.number) /* a refused list kept */
        return r;
    r.pieces = model_pieces_fresh();
    return r;
}
