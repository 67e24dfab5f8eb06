#include "tries.h"

#include "compare.h"
#include "model.h"

/* As `controller_c` has them: a member added in one place alone is found here. */
_Static_assert(sizeof(linkshoar_controller) == 16 && sizeof(linkshoar_controlled) == 20 && sizeof(linkshoar_fetched) == 24, "structs");

static int controller_same(linkshoar_controller a, linkshoar_controller b)
{
    return a.top_of_frame == b.top_of_frame && a.counter == b.counter && a.offset == b.offset && a.refresh == b.refresh && a.cycles == b.cycles &&
           a.update == b.update && a.page == b.page && a.video == b.video && a.inhibited == b.inhibited;
}

/* An address that is often near the wrap at 18 bits, or at 17 or 16. */
static uint32_t some_address(void)
{
    static const uint32_t edges[] = {0, 65536, 131072, 196608, 262144};
    if (chance(2))
        return below(262144);
    return (edges[below(5)] + 262144 - below(4)) % 262144;
}

static linkshoar_controller some_controller(void)
{
    linkshoar_controller s = model_controller_fresh();
    s.top_of_frame = some_address();
    s.counter = some_address();
    s.offset = (uint8_t)(chance(3) ? 255 - below(2) : any());
    s.refresh = (uint8_t)(chance(3) ? 255 - below(3) : any());
    s.cycles = (uint8_t)below(4);
    s.update = (uint8_t)below(3);
    s.page = (uint8_t)(s.update == 2 ? 0 : below(2));
    s.video = (uint8_t)below(2);
    s.inhibited = (uint8_t)below(2);
    if (chance(8)) /* a state that the rules exclude, or that no `Controller` can be */
        switch (below(8)) {
        case 0: s.top_of_frame = chance(2) ? 262144 : any(); break;
        case 1: s.counter = chance(2) ? 262144 : any(); break;
        case 2: s.cycles = (uint8_t)(chance(2) ? 4 : any()); break;
        case 3: s.update = (uint8_t)(chance(2) ? 3 : any()); break;
        case 4: s.page = (uint8_t)(chance(2) ? 2 : any()); break;
        case 5: s.video = (uint8_t)(chance(2) ? 2 : any()); break;
        case 6: s.inhibited = (uint8_t)(chance(2) ? 2 : any()); break;
        default: s.page = 1, s.update = 2; break;
        }
    return s;
}

static int32_t some_pan(void)
{
    static const int32_t edges[] = {-131073, -131072, -131071, -1, 0, 1, 131070, 131071, 131072, INT32_MIN, INT32_MAX};
    return chance(2) ? edges[below(11)] : chance(4) ? (int32_t)any() : (int32_t)below(262144) - 131072;
}

static linkshoar_controller controlled(const char *what, linkshoar_controlled a, linkshoar_controlled b)
{
    count(b.number);
    if (!controller_same(a.state, b.state) || a.number != b.number)
        differ(what);
    return b.state;
}

static linkshoar_controller fetched(linkshoar_fetched a, linkshoar_fetched b)
{
    count(b.number);
    if (!controller_same(a.state, b.state) || a.number != b.number || a.bank != b.bank || a.row != b.row || a.column != b.column)
        differ("linkshoar_controller_fetch");
    return b.state;
}

/* One call of the library and one of the second implementation: the state afterwards. */
#define BOTH(call, ...) controlled("linkshoar_controller_" #call, linkshoar_controller_##call(__VA_ARGS__), model_controller_##call(__VA_ARGS__))

static linkshoar_controller some_call(linkshoar_controller s)
{
    uint32_t value;
    int32_t words;
    switch (below(16)) {
    case 0: value = chance(2) ? some_address() : about(262144); return BOTH(set_top_of_frame, s, value);
    case 1: words = some_pan(); return BOTH(pan, s, words);
    case 2: value = about(256); return chance(3) ? BOTH(set_offset, s, value) : s;
    case 3: {
        uint32_t cycles = chance(4) ? about(4) : below(4), update = chance(4) ? about(3) : below(3);
        uint32_t page = chance(2) ? 0 : chance(2) ? 1 : chance(2) ? 256 : any();
        return BOTH(set_mode, s, cycles, page, update);
    }
    case 4: case 5: case 6: value = chance(2) ? 0 : chance(2) ? 1 : chance(2) ? 65536 : any(); return BOTH(video, s, value);
    case 7: case 8: case 9: return BOTH(horizontal_sync, s);
    case 10: case 11: return BOTH(vertical_sync, s);
    default: return fetched(linkshoar_controller_fetch(s), model_controller_fetch(s));
    }
}

void try_controller(void)
{
    if (!controller_same(linkshoar_controller_fresh(), model_controller_fresh()))
        differ("linkshoar_controller_fresh");
    linkshoar_controller s = chance(4) ? model_controller_fresh() : some_controller();
    for (uint32_t n = below(80); n; n--)
        s = some_call(s);
}

/* A frame from the library alone: word k of line l has the address Top of Frame + l * (words to a line + Offset) + k, wrapped at 18 bits.
 * Video is on at the end. */
static linkshoar_controller frame(linkshoar_controller s, uint32_t top, uint32_t offset)
{
    uint32_t words = below(9), lines = below(4);
    s = linkshoar_controller_video(s, 1).state;
    for (uint32_t l = 0; l <= lines; l++) {
        for (uint32_t k = 0; k < words; k++) {
            linkshoar_fetched f = linkshoar_controller_fetch(s);
            uint32_t address = (top + l * (words + offset) + k) % 262144;
            count(f.number);
            if (f.number || f.bank != address / 65536 || f.row != address / 256 % 256 || f.column != address % 256)
                differ("the address of a word of a frame");
            s = f.state;
        }
        s = linkshoar_controller_video(s, 0).state;
        s = linkshoar_controller_horizontal_sync(s).state;
        s = linkshoar_controller_video(s, 1).state;
    }
    return s;
}

/* Some frames, each panned from the one before, with the vertical sync before or after video is set off. */
void try_frame(void)
{
    uint32_t top = some_address(), offset = below(256);
    linkshoar_controller s = linkshoar_controller_set_offset(linkshoar_controller_fresh(), offset).state;
    s = linkshoar_controller_set_mode(s, below(4), 0, chance(2) ? LINKSHOAR_UPDATE_RETRACE : LINKSHOAR_UPDATE_INTERLEAVED).state;
    s = linkshoar_controller_set_top_of_frame(s, top).state;
    for (int frames = 0; frames < 3; frames++) {
        int32_t words = (int32_t)below(262144) - 131072;
        int early = chance(2);
        s = linkshoar_controller_pan(s, words).state;
        top = (uint32_t)((int64_t)top + 262144 + words) % 262144;
        if (early)
            s = linkshoar_controller_video(s, 0).state;
        s = linkshoar_controller_vertical_sync(s).state;
        for (uint32_t n = below(4); n; n--)
            s = linkshoar_controller_horizontal_sync(s).state;
        if (!early)
            s = linkshoar_controller_video(s, 0).state;
        s = frame(s, top, offset);
    }
}
