/* The Am8159's colours, from change request M-112 and its sheet's function table: the table bit by bit, an output gun by gun. */
#include "model.h"

#include <string.h>

enum { RED, GREEN, BLUE };

/* ---- states */

typedef enum { STEP, OVERLAY, BLANK, SYNC, NONE } kind;

static kind kind_of(unsigned level)
{
    if (level < 16)
        return STEP;
    if (level == 20 && FAULT == 103) /* a level of 20 accepted, as an overlay's */
        return OVERLAY;
    return level == 16 ? SYNC : level == 17 ? BLANK : level == 18 || level == 19 ? OVERLAY : NONE;
}

/* Whether a pixel can make these levels together. */
static int makes(linkshoar_levels levels)
{
    kind red = kind_of(levels.red), green = kind_of(levels.green), blue = kind_of(levels.blue);
    if (red == NONE || green == NONE || blue == NONE)
        return 0;
    if (FAULT == 104 && red != SYNC && green != SYNC && blue != SYNC) /* steps, overlay and blank accepted together */
        return 1;
    if (FAULT == 105 && green == SYNC) /* red and blue accepted at sync, or at any level, beside green's */
        return 1;
    if (red == BLANK && green == SYNC && blue == BLANK)
        return FAULT != 106; /* sync on green excluded */
    return red == green && green == blue && red != SYNC;
}

static int allowed(linkshoar_colours s)
{
    if (s.waiting > 1 && FAULT != 107) /* a waiting of 2 accepted */
        return 0;
    if (!s.waiting && s.low && FAULT != 108) /* a low part accepted where none waits */
        return 0;
    return makes(s.first) && makes(s.second) && (makes(s.third) || FAULT == 109); /* the third output not looked at */
}

linkshoar_colours model_colours_fresh(void)
{
    linkshoar_colours s;
    memset(&s, FAULT == 110 ? 18 : 17, sizeof s); /* fresh at black */
    s.waiting = s.low = 0;
    return s;
}

/* ---- numbers */

static int within(uint32_t address)
{
#if FAULT == 111 /* an address of 64 accepted */
    return address < 65;
#elif FAULT == 112 /* an address cut to eight bits */
    return address % 256 < 64;
#else
    return address < 64;
#endif
}

static int thirteen(uint32_t data)
{
#if FAULT == 113 /* data of 8,192 accepted */
    return data < 8193;
#elif FAULT == 114 /* data cut to sixteen bits */
    return data % 65536 < 8192;
#else
    return data >> 13 == 0;
#endif
}

/* 3, then 21, then what a call has of its own. */
static uint32_t lent(size_t words, int good, uint32_t own)
{
    if (FAULT == 115 && !good) /* 21 before 3 */
        return 21;
    if (words < 64 || (words > 64 && FAULT != 116)) /* a longer table accepted */
        return 3;
    if (FAULT == 117 && own) /* 22 before 21 */
        return own;
    return good ? own : 21;
}

static uint32_t judged(linkshoar_colours state, uint32_t number)
{
    if (FAULT == 118 && number == 3) /* 3 before 1 */
        return 3;
    return allowed(state) ? number : 1;
}

/* The state as it came, with the number. */
static linkshoar_coloured answer(linkshoar_colours state, uint32_t number)
{
    linkshoar_coloured r;
    memset(&r, 0, sizeof r);
    r.state = state;
    r.number = judged(state, number);
    return r;
}

/* ---- the table, which has six address lines */

static unsigned bit(const uint16_t *table, uint32_t address, unsigned b)
{
    return table[address % 64] >> b & 1;
}

/* The bits from this one up to that one, which is not included. */
static unsigned bits(const uint16_t *table, uint32_t address, unsigned from, unsigned end)
{
    unsigned number = 0;
    while (end > from)
        number = 2 * number + bit(table, address, --end);
    return number;
}

static void store(uint16_t *table, uint32_t address, uint32_t word)
{
    if (FAULT == 119) /* a write leaves bits 13 to 15 as they were */
        word |= bits(table, address, 13, 16) << 13;
    table[address % 64] = (uint16_t)word;
}

static linkshoar_colours without_low(linkshoar_colours s)
{
    s.waiting = 0;
    s.low = 0;
    return s;
}

linkshoar_coloured model_colours_write(linkshoar_colours state, uint16_t *table, size_t words, uint32_t address, uint32_t data)
{
    linkshoar_coloured r = answer(state, lent(words, within(address) && thirteen(data), 0));
    if (FAULT == 120 && r.number == 21) /* a refused write drops the low part */
        r.state = without_low(state);
    if (r.number)
        return r;
    store(table, address, data);
    if (FAULT != 121) /* a write in 16 bits keeps the low part */
        r.state = without_low(state);
    return r;
}

linkshoar_coloured model_colours_write_low(linkshoar_colours state, uint8_t low)
{
    linkshoar_coloured r = answer(state, 0);
    if (FAULT == 122) /* the state not looked at */
        r.number = 0;
    if (r.number || (FAULT == 123 && state.waiting)) /* a new low part does not replace the one waiting */
        return r;
    r.state.waiting = 1;
    r.state.low = low;
    return r;
}

linkshoar_coloured model_colours_write_high(linkshoar_colours state, uint16_t *table, size_t words, uint32_t address, uint8_t high)
{
    uint32_t word = state.low, none = state.waiting ? 0 : 22;
    if (FAULT == 124 && none && words == 64) { /* with no low part waiting the table's is taken */
        word = bits(table, address, 0, 8);
        none = 0;
    }
    linkshoar_coloured r = answer(state, lent(words, within(address), none));
    if (FAULT == 125 && r.number == 21) /* a refused high part drops the low part */
        r.state = without_low(state);
    if (r.number)
        return r;
    for (unsigned b = 0; b < (FAULT == 126 ? 8 : 5); b++) /* bits 5 to 7 of a high part stored */
        if (high >> b & 1)
            word |= 1u << (8 + b);
    store(table, address, word);
    if (FAULT != 127) /* the low part goes on waiting */
        r.state = without_low(state);
    return r;
}

linkshoar_word model_colours_read(const uint16_t *table, size_t words, uint32_t address)
{
    linkshoar_word r;
    memset(&r, 0, sizeof r);
    r.number = lent(words, within(address), 0);
    if (!r.number || (FAULT == 128 && r.number == 21)) /* a refused read answers what its six address lines name */
        r.word = (uint16_t)bits(table, address, 0, FAULT == 129 ? 16 : 13); /* bits above the thirteen read */
    return r;
}

static linkshoar_byte part(const uint16_t *table, size_t words, uint32_t address, unsigned from, unsigned end)
{
    linkshoar_byte r;
    memset(&r, 0, sizeof r);
    r.number = lent(words, within(address), 0);
    if (!r.number)
        r.byte = (uint8_t)bits(table, address, from, end);
    return r;
}

linkshoar_byte model_colours_read_low(const uint16_t *table, size_t words, uint32_t address)
{
    return part(table, words, address, 0, 8);
}

linkshoar_byte model_colours_read_high(const uint16_t *table, size_t words, uint32_t address)
{
    return part(table, words, address, 8, FAULT == 130 ? 16 : 13); /* a high read with bits above 4 */
}

/* ---- pixels */

static unsigned yes(uint8_t input)
{
    return FAULT == 131 ? input & 1 : input != 0; /* an input of 2 is no */
}

/* Whether this bit of a colour is inverted. */
static unsigned inverts(unsigned b, unsigned blink, unsigned bit_12)
{
    switch (FAULT) {
    case 132: return blink; /* blink without its bit */
    case 133: return bit_12; /* the bit without blink */
    case 134: return blink & bit_12 & (b >> 2 == GREEN); /* green alone inverted */
    case 135: return blink & bit_12 & (b > 0); /* bits 1 to 11 inverted */
    default: return blink & bit_12;
    }
}

static unsigned step(unsigned gun, const uint16_t *table, linkshoar_inputs i)
{
    unsigned level = 0, from = 4 * (FAULT == 136 ? BLUE - gun : gun); /* a colour's red and blue exchanged */
    for (unsigned b = from; b < from + 4; b++)
        level |= (bit(table, i.address, b) ^ inverts(b, yes(i.blink), bit(table, i.address, 12))) << (b - from);
    return level;
}

static unsigned overlay(unsigned gun, linkshoar_inputs i)
{
    const uint8_t on[] = {i.red_on, i.green_on, i.blue_on};
    unsigned lit = yes(on[FAULT == 137 ? BLUE - gun : gun]); /* an overlay's red and blue exchanged */
    switch (FAULT) {
    case 138: return lit ? 19 : 0; /* step 0 where a gun is off */
    case 139: return lit ? 15 : 18; /* step 15 where it is on */
    default: return 18 + lit;
    }
}

/* The rows of the function table, from the last up. */
static unsigned level(unsigned gun, const uint16_t *table, linkshoar_inputs i)
{
    unsigned syncs = yes(i.horizontal_sync) + yes(i.vertical_sync), blank = yes(i.blank), over = yes(i.overlay);
    if (FAULT == 140 && blank) /* blank wins over sync */
        return 17;
    if (FAULT == 141 && over && !syncs) /* overlay wins over blank */
        return overlay(gun, i);
    if (syncs == 1 || (FAULT == 142 && syncs)) { /* both syncs give sync level */
        if (gun == GREEN || FAULT == 143) /* red and blue at sync level too */
            return 16;
        if (FAULT != 144) /* red and blue shown beside green's sync */
            return 17;
    }
    if (blank || (syncs == 2 && FAULT != 145)) /* both syncs are as none */
        return 17;
    return over ? overlay(gun, i) : step(gun, table, i);
}

static linkshoar_levels asked(const uint16_t *table, linkshoar_inputs i)
{
    linkshoar_levels levels;
    levels.red = (uint8_t)level(RED, table, i);
    levels.green = (uint8_t)level(GREEN, table, i);
    levels.blue = (uint8_t)level(BLUE, table, i);
    return levels;
}

static linkshoar_colours moved(linkshoar_colours s, linkshoar_levels entering)
{
    s.first = s.second;
    s.second = FAULT == 146 ? entering : s.third; /* a delay of two clocks */
    s.third = entering;
    return s;
}

linkshoar_emitted model_colours_pixel(linkshoar_colours state, const uint16_t *table, size_t words, linkshoar_inputs inputs)
{
    linkshoar_emitted r;
    int good = within(inputs.address);
    if (FAULT == 147 && (inputs.blank || inputs.overlay)) /* the address judged only where the colour is shown */
        good = 1;
    memset(&r, 0, sizeof r);
    r.state = state;
    r.number = judged(state, lent(words, good, 0));
    if (FAULT == 148 && r.number == 21) /* a refused pixel moves the pipe */
        r.state = moved(state, state.third);
    if (!r.number || FAULT == 149) /* a refused pixel answers the next output */
        r.levels = state.first;
    if (r.number)
        return r;
    r.state = moved(state, asked(table, inputs));
    if (FAULT == 150 && yes(inputs.horizontal_sync) != yes(inputs.vertical_sync)) /* sync comes out at once */
        r.levels = r.state.third;
    return r;
}
