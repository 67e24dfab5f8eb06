/* Lists in pieces: sessions of calls at random against the second implementation, and lists cut at random against the library's own
 * whole-list call. */
#include "both.h"
#include "compare.h"
#include "cutting.h"
#include "inputs.h"
#include "model.h"
#include "tries.h"

#include <string.h>

static linkshoar_taken same_taken(const char *name, linkshoar_taken a, linkshoar_taken b, size_t words, size_t serial_words)
{
    count(b.number);
    if (!vram_same(a.state, b.state) || !pieces_same(a.pieces, b.pieces) || a.number != b.number || a.place != b.place)
        differ(name);
    same_words(name, memory_a, memory_b, words);
    same_words(name, serial_a, serial_b, serial_words);
    return b;
}

/* So many bytes from `at` on of the list lent. */
static linkshoar_taken both_take(linkshoar_vram state, linkshoar_pieces pieces, size_t words, size_t serial_words, size_t at, size_t length)
{
    linkshoar_taken a = linkshoar_pieces_take(state, pieces, words_of(memory_a, words), words, words_of(serial_a, serial_words),
                                              serial_words, bytes_of(bytes_a + at, length), length);
    linkshoar_taken b = model_pieces_take(state, pieces, words_of(memory_b, words), words, words_of(serial_b, serial_words),
                                          serial_words, bytes_of(bytes_b + at, length), length);
    same_bytes("the piece of linkshoar_pieces_take", bytes_a + at, bytes_b + at, length);
    return same_taken("linkshoar_pieces_take", a, b, words, serial_words);
}

static linkshoar_taken both_end(linkshoar_vram state, linkshoar_pieces pieces, size_t words, size_t serial_words)
{
    linkshoar_taken a = linkshoar_pieces_end(state, pieces, words_of(memory_a, words), words, words_of(serial_a, serial_words),
                                             serial_words);
    linkshoar_taken b = model_pieces_end(state, pieces, words_of(memory_b, words), words, words_of(serial_b, serial_words),
                                         serial_words);
    return same_taken("linkshoar_pieces_end", a, b, words, serial_words);
}

/* ---- sessions */

/* One member at random, or at its edge. */
static linkshoar_pieces damaged(linkshoar_pieces p)
{
    switch (below(7)) {
    case 0: p.left = chance(2) ? p.start - below(2) : any(); break;
    case 1: p.start = chance(2) ? UINT32_MAX - below(16) : chance(2) ? below(16) : any(); break;
    case 2: p.number = chance(4) ? any() : below(NUMBERS + 1); break;
    case 3: p.held[below(sizeof p.held)] = (uint8_t)(chance(2) ? below(12) : any()); break;
    case 4: p.count = (uint8_t)(chance(8) ? any() : below(15)); break;
    case 5: p.open = (uint8_t)(chance(8) ? any() : below(3)); break;
    default: p.open = 1, p.left = below(p.start ? p.start : 1); break;
    }
    return p;
}

/* A call that does not belong to the session: what it is given is damaged. */
static void odd_call(linkshoar_vram state, linkshoar_pieces pieces, uint32_t rows, size_t at, size_t length)
{
    size_t words = 512 * rows - (chance(3) ? 1 + below(600) % (512 * rows) : 0), serial = chance(3) ? below(MOST_SERIAL) : 256;
    if (chance(3))
        state = some_vram();
    for (uint32_t n = below(3); n; n--)
        pieces = damaged(pieces);
    if (chance(3))
        both_end(state, pieces, words, serial);
    else
        both_take(state, pieces, words, serial, at, length);
}

/* Lists one after the other, each in pieces, accepted and refused; now and then a list goes on into the next, has few bytes to go to the
 * limit, or finds another state than the piece before left. */
void try_pieces(void)
{
    uint32_t rows = chance(200) ? 1 + below(512) : 1 + below(3);
    size_t words = 512 * (size_t)rows;
    linkshoar_taken t = {.state = some_vram(), .pieces = model_pieces_fresh()};
    some_words(memory_a, memory_b, words);
    some_words(serial_a, serial_b, 256);
    for (uint32_t lists = 1 + below(3); lists; lists--) {
        size_t length = some_list(rows), at = 0;
        int singly = length < 100 && chance(6);
        if (chance(8))
            t.pieces = (linkshoar_pieces){.start = UINT32_MAX - below(100)};
        while (at < length || chance(4)) {
            size_t n = singly && at < length ? 1 : some_piece(length - at);
            if (chance(12))
                odd_call(t.state, t.pieces, rows, at, n);
            if (chance(20))
                t.state = some_vram();
            t = both_take(t.state, t.pieces, words, 256, at, n);
            if (t.number && t.number <= LINKSHOAR_REGISTER_LENGTH) /* an excluded state: nothing was taken */
                t.state = model_vram_fresh();
            else
                at += n;
        }
        if (!chance(6))
            t = both_end(t.state, t.pieces, words, 256);
    }
}

void try_cutting(void)
{
    uint32_t rows = chance(200) ? 1 + below(512) : 1 + below(3);
    size_t words = 512 * rows - (chance(40) ? 1 + below(600) % (512 * rows) : 0), serial = chance(40) ? below(MOST_SERIAL) : 256;
    some_words(memory_a, memory_b, words);
    some_words(serial_a, serial_b, 256);
    size_t length = some_list(rows);
    linkshoar_vram s = some_vram();
    switch (below(length < 100 ? 3 : 2)) {
    case 0: same_cut(s, words, serial, length, some_piece(length), 0); break;
    case 1: same_cut(s, words, serial, length, below((uint32_t)length + 1), length + 1); break;
    default: same_cut(s, words, serial, length, below(2), 1); break;
    }
}

/* ---- edges */

static const unsigned tags[] = {1, 2, 3, 4, 5, 6, 7, 9};
enum { TAGS = sizeof tags / sizeof *tags };

/* A field that is accepted on a row of words, once there was a full transfer. */
static size_t put(uint8_t *at, unsigned tag)
{
    uint16_t data = (uint16_t)any();
    switch (tag) {
    case LINKSHOAR_TAG_WORD_WRITE: return linkshoar_put_word_write(at, 0, 5, data, LINKSHOAR_MASKING_MASKED, 0x3FFC, LINKSHOAR_STROBES_LOW);
    case LINKSHOAR_TAG_BLOCK_WRITE: return linkshoar_put_block_write(at, 0, 9, data, LINKSHOAR_MASKING_PLAIN, 0, LINKSHOAR_STROBES_HIGH);
    case LINKSHOAR_TAG_LOAD_COLOUR: return linkshoar_put_load_colour(at, data, LINKSHOAR_STROBES_BOTH);
    case LINKSHOAR_TAG_LOAD_MASK: return linkshoar_put_load_mask(at, data, LINKSHOAR_STROBES_LOW);
    case LINKSHOAR_TAG_RESET_REFRESH: return linkshoar_put_reset_refresh(at);
    case LINKSHOAR_TAG_FULL_TRANSFER: return linkshoar_put_full_transfer(at, 0, 1, 17);
    case LINKSHOAR_TAG_SPLIT_TRANSFER: return linkshoar_put_split_transfer(at, 0, 0, 5);
    default: return linkshoar_put_stop_points(at, 32);
    }
}

static void lend(size_t length)
{
    memcpy(bytes_b, bytes_a, length);
}

static linkshoar_vram loaded(void)
{
    linkshoar_vram s = model_vram_fresh();
    s.loaded = 1;
    return s;
}

/* The first bytes held of those lent, at a start. */
static linkshoar_pieces holding(uint32_t start, size_t held)
{
    linkshoar_pieces p = model_pieces_fresh();
    p.start = start;
    p.count = (uint8_t)held;
    memcpy(p.held, bytes_a, held < sizeof p.held ? held : sizeof p.held);
    return p;
}

/* Memories and serial registers of every length about the right one; nothing held, a field in part, or a refusal; states and pieces that
 * are excluded and that are not. */
static void every_length(void)
{
    static const size_t memories[] = {0, 511, 512, 513, 512 * 512, 512 * 512 + 1, 513 * 512}, serials[] = {0, 255, 256, 257};
    size_t length = put(bytes_a, LINKSHOAR_TAG_WORD_WRITE);
    lend(length);
    for (unsigned n = 0; n < 7 * 4 * 3 * 2 * 2; n++) {
        size_t words = memories[n % 7], serial = serials[n / 7 % 4], held = n / 28 % 3 == 1 ? 8 : 0;
        linkshoar_vram s = loaded();
        linkshoar_pieces p = holding(3, held);
        p.number = n / 28 % 3 == 2 ? LINKSHOAR_STROBES_OTHER : 0;
        p.open = n / 84 % 2 ? 2 : 0;
        s.stop = n / 168 ? 0 : 128;
        both_take(s, p, words, serial, held, length - held);
        both_take(s, p, words, serial, held, 2);
        both_take(s, p, words, serial, 0, 0);
        both_end(s, p, words, serial);
    }
}

/* A field of every tag, each part of it held, at every start from a field's length below the limit on: a byte more; its rest and two bytes
 * more, and the last call. */
static void every_start(void)
{
    for (size_t k = 0; k < TAGS; k++) {
        size_t length = put(bytes_a, tags[k]);
        bytes_a[length] = LINKSHOAR_TAG_STOP_POINTS;
        bytes_a[length + 1] = 0;
        lend(length + 2);
        for (size_t held = 0; held <= length; held++)
            for (uint32_t room = 0; room <= LINKSHOAR_FIELD_BYTES + 2; room++) {
                linkshoar_pieces p = holding(UINT32_MAX - room, held);
                p.open = (uint8_t)(held % 2);
                p.left = held % 2 ? p.start - 1 : 0;
                both_take(loaded(), p, 512, 256, held, 1);
                linkshoar_taken t = both_take(loaded(), p, 512, 256, held, length + 2 - held);
                both_end(t.state, t.pieces, 512, 256);
            }
    }
}

/* A field of every tag between two others, cut in every place, with an empty piece at the cut; and refused: by its length, by its body. */
static void every_cut(void)
{
    for (size_t k = 0; k < TAGS; k++)
        for (unsigned wrong = 0; wrong < 4; wrong++) {
            size_t first = put(bytes_a, LINKSHOAR_TAG_LOAD_MASK), second = put(bytes_a + first, tags[k]), length = first + second;
            if (wrong == 1)
                bytes_a[first + 2]++;
            if (wrong == 2)
                bytes_a[first + 1]++;
            if (wrong == 3)
                memset(bytes_a + first + 3, 255, second - 3);
            length += put(bytes_a + length, LINKSHOAR_TAG_WORD_WRITE);
            length += put(bytes_a + length, LINKSHOAR_TAG_RESET_REFRESH);
            lend(length);
            for (size_t cut = 0; cut <= length; cut++) {
                linkshoar_taken t = both_take(loaded(), model_pieces_fresh(), 512, 256, 0, cut);
                t = both_take(t.state, t.pieces, 512, 256, cut, 0);
                t = both_take(t.state, t.pieces, 512, 256, cut, length - cut);
                both_end(t.state, t.pieces, 512, 256);
            }
        }
}

/* Every tag, with each length that some tag has and others: as a piece, and held. */
static void every_header(void)
{
    static const unsigned lengths[] = {0, 1, 2, 3, 4, 9, 10, 11, 12, 256, 256 + 10, 65535};
    for (unsigned tag = 0; tag < 256; tag++)
        for (size_t l = 0; l < sizeof lengths / sizeof *lengths; l++) {
            if (tag > 12 && tag < 255 && l % 3)
                continue;
            bytes_a[0] = (uint8_t)tag;
            linkshoar_put_pair(bytes_a + 1, (uint16_t)lengths[l]);
            lend(3);
            both_take(loaded(), model_pieces_fresh(), 512, 256, 0, 3);
            both_take(loaded(), holding(40, 3), 512, 256, 0, 0);
        }
}

/* Both calls on pieces as given: no byte, a byte more of the field held, the last call. */
static void both_calls(linkshoar_pieces p)
{
    both_take(loaded(), p, 512, 256, 0, 0);
    both_take(loaded(), p, 512, 256, p.count < 13 ? p.count : 0, 1);
    both_end(loaded(), p, 512, 256);
}

/* Every member at its edge and just past it, alone and beside others. */
static void every_member(void)
{
    static const uint32_t numbers[] = {UINT32_MAX, 256 + 4, 65536 + 19, NUMBERS, NUMBERS + 1};
    lend(put(bytes_a, LINKSHOAR_TAG_BLOCK_WRITE));
    for (unsigned n = 0; n < NUMBERS + sizeof numbers / sizeof *numbers; n++) /* refusals, with nothing and with what they exclude */
        for (unsigned with = 0; with < 8; with++) {
            linkshoar_pieces p = holding(with == 7 ? UINT32_MAX : 40, with == 1);
            p.number = n < NUMBERS ? n : numbers[n - NUMBERS];
            p.open = with == 2 || with == 3 ? 1 : 0;
            p.left = with == 3 || with == 4 ? 7 : 0;
            p.held[0] = with == 5 ? 1 : p.held[0];
            p.held[12] = with == 6 ? 1 : 0;
            both_calls(p);
        }
    for (unsigned count = 0; count <= 16; count++) /* the count, on zeros and on a field */
        for (unsigned field = 0; field < 2; field++) {
            linkshoar_pieces p = holding(40, field ? 13 : 0);
            p.count = (uint8_t)(count < 16 ? count : 255);
            both_calls(p);
        }
    for (unsigned count = 0; count < 13; count++) /* each spare byte */
        for (unsigned spare = 0; spare < 13; spare++) {
            linkshoar_pieces p = holding(40, count);
            p.held[spare] = spare < count ? p.held[spare] : (uint8_t)(1u << spare % 8);
            both_calls(p);
        }
    for (unsigned n = 0; n < 5 * 7 * 3; n++) { /* the open mask load against the start */
        static const uint8_t opens[] = {0, 1, 2, 128, 255};
        static const uint64_t lefts[] = {0, 1, 39, 40, 41, 4294967296 + 39, UINT64_MAX};
        static const uint32_t starts[] = {0, 40, UINT32_MAX};
        linkshoar_pieces p = holding(starts[n / 35], n % 2 && n / 35 < 2 ? 5 : 0);
        p.open = opens[n % 5];
        p.left = lefts[n / 5 % 7];
        both_calls(p);
    }
}

/* Every list of up to three fields, each a mask load, a reset refresh, a masked write or a colour load that is refused, with and without a
 * byte of one more, cut once; and the same list again, whole. */
static void every_mask_list(void)
{
    enum { KINDS = 4, FIELDS = 3 };
    static const unsigned kinds[] = {LINKSHOAR_TAG_LOAD_MASK, LINKSHOAR_TAG_RESET_REFRESH, LINKSHOAR_TAG_WORD_WRITE,
                                     LINKSHOAR_TAG_LOAD_COLOUR};
    unsigned lists = 1;
    for (unsigned fields = 0; fields <= FIELDS; fields++, lists *= KINDS)
        for (unsigned list = 0; list < 2 * lists; list++) {
            size_t length = 0, last = 0;
            for (unsigned k = 0, n = list / 2; k < fields; k++, n /= KINDS) {
                last = put(bytes_a + length, kinds[n % KINDS]);
                length += last;
                if (n % KINDS == 3)
                    bytes_a[length - 1] = 0; /* strobes */
            }
            if (list % 2)
                bytes_a[length++] = LINKSHOAR_TAG_STOP_POINTS;
            lend(length);
            linkshoar_taken t = both_take(model_vram_fresh(), model_pieces_fresh(), 512, 256, 0, length - last / 2);
            t = both_take(t.state, t.pieces, 512, 256, length - last / 2, last / 2);
            t = both_end(t.state, t.pieces, 512, 256);
            t = both_take(t.state, t.pieces, 512, 256, 0, length);
            both_end(t.state, t.pieces, 512, 256);
        }
}

void pieces_edges(void)
{
    if (!pieces_same(linkshoar_pieces_fresh(), model_pieces_fresh()))
        differ("linkshoar_pieces_fresh");
    every_length();
    every_start();
    every_cut();
    every_header();
    every_member();
    every_mask_list();
}
