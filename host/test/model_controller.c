/* The Am8150's counters, from change request M-100: additions are counted up one by one. */
#include "model.h"

#include <string.h>

#if FAULT == 9 /* a wrap at 17 bits */
enum { WRAP = 131072 };
#else
enum { WRAP = 262144 };
#endif

static int allowed(linkshoar_controller s)
{
    if (s.update > 2 || s.page > 1 || s.video > 1 || s.inhibited > 1)
        return 0;
    if (s.top_of_frame >> 18 || s.counter >> 18 || s.cycles > 3)
        return 0;
    return !(s.page == 1 && s.update == 2);
}

/* The answer of a call whose own test gives this number. */
static linkshoar_controlled judged(linkshoar_controller state, uint32_t number)
{
    linkshoar_controlled r;
    memset(&r, 0, sizeof r);
    r.state = state;
    r.number = allowed(state) ? number : 1;
    return r;
}

static void raise(linkshoar_controller *s)
{
    s->counter = (s->counter + 1) % WRAP;
}

linkshoar_controller model_controller_fresh(void)
{
    linkshoar_controller s;
    memset(&s, 0, sizeof s);
    return s;
}

/* ---- settings */

linkshoar_controlled model_controller_set_top_of_frame(linkshoar_controller state, uint32_t address)
{
    linkshoar_controlled r = judged(state, address > 262143 ? 16 : 0);
    if (!r.number)
        r.state.top_of_frame = address;
    return r;
}

linkshoar_controlled model_controller_pan(linkshoar_controller state, int32_t words)
{
    int bad = words < -131072 || words > 131071;
#if FAULT == 15 /* a pan by 131,072 accepted */
    bad = words < -131072 || words > 131072;
#endif
    linkshoar_controlled r = judged(state, bad ? 16 : 0);
    if (!r.number) {
        int64_t sum = (int64_t)state.top_of_frame + words;
        while (sum < 0)
            sum += 262144;
        while (sum > 262143)
            sum -= 262144;
        r.state.top_of_frame = (uint32_t)sum;
    }
    return r;
}

linkshoar_controlled model_controller_set_offset(linkshoar_controller state, uint32_t offset)
{
    linkshoar_controlled r = judged(state, offset > 255 ? 16 : 0);
#if FAULT == 14 /* a refused Offset resets */
    if (r.number == 16)
        r.state.counter = 0;
#endif
    if (!r.number) {
        r.state.offset = (uint8_t)offset;
        r.state.counter = 0;
        r.state.refresh = 0;
#if FAULT != 12 /* the Offset set with video left on */
        r.state.video = 0;
#endif
        r.state.inhibited = 0;
    }
    return r;
}

linkshoar_controlled model_controller_set_mode(linkshoar_controller state, uint32_t cycles, uint32_t page, uint32_t update)
{
    int bad = cycles > 3 || update > 2 || (page && update == 2);
#if FAULT == 16 /* page mode together with interleaved update accepted */
    bad = cycles > 3 || update > 2;
#endif
    linkshoar_controlled r = judged(state, bad ? 16 : 0);
    if (!r.number) {
        r.state.cycles = (uint8_t)cycles;
        r.state.page = page ? 1 : 0;
        r.state.update = (uint8_t)update;
    }
    return r;
}

/* ---- video and syncs */

linkshoar_controlled model_controller_video(linkshoar_controller state, uint32_t on)
{
    linkshoar_controlled r = judged(state, 0);
    if (!r.number) {
        int was = state.video;
#if FAULT == 8 /* inhibition ended by video set on where it is on */
        was = 0;
#endif
        r.state.video = on ? 1 : 0;
        if (on && !was)
            r.state.inhibited = 0;
    }
    return r;
}

linkshoar_controlled model_controller_horizontal_sync(linkshoar_controller state)
{
    linkshoar_controlled r = judged(state, 0);
    if (r.number)
        return r;
    int adds = !state.inhibited && state.update != 1, cycles = state.cycles;
#if FAULT == 7 /* the Offset added while inhibited */
    adds = state.update != 1;
#endif
#if FAULT == 10 /* no refresh cycles in override */
    if (state.update == 1)
        cycles = 0;
#endif
    for (int i = 0; adds && i < state.offset; i++)
        raise(&r.state);
    for (int i = 0; i < cycles; i++)
        r.state.refresh++;
    return r;
}

linkshoar_controlled model_controller_vertical_sync(linkshoar_controller state)
{
    linkshoar_controlled r = judged(state, 0);
    if (!r.number) {
#if FAULT == 11 /* no load at vertical sync in override */
        if (state.update != 1)
#endif
            r.state.counter = state.top_of_frame;
        r.state.inhibited = 1;
    }
    return r;
}

/* ---- words */

linkshoar_fetched model_controller_fetch(linkshoar_controller state)
{
    linkshoar_controlled judgement = judged(state, !state.video || state.update == 1 ? 17 : 0);
    linkshoar_fetched r;
    memset(&r, 0, sizeof r);
    r.state = state;
    r.number = judgement.number;
    if (!r.number) {
        raise(&r.state);
#if FAULT == 13 /* the address after the step answered */
        state = r.state;
#endif
        r.bank = (uint8_t)(state.counter >> 16 & 3);
        r.row = (uint8_t)(state.counter >> 8 & 255);
        r.column = (uint8_t)(state.counter & 255);
#if FAULT == 17 /* bank and row exchanged */
        r.bank = (uint8_t)(state.counter >> 8 & 255);
        r.row = (uint8_t)(state.counter >> 16 & 3);
#endif
    }
    return r;
}
