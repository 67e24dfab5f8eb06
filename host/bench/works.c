#include "works.h"

static linkshoar_vram ready(void)
{
    linkshoar_vram s = linkshoar_vram_fresh();
    s.loaded = 1;
    return s;
}

/* ---- lists */

static void run_list(const uint8_t *list, size_t length)
{
    linkshoar_ran r = linkshoar_list_run(ready(), memory, WORDS, serial, 256, list, length);
    sink += r.number + r.state.colour;
}

static void run_masked_blocks(void)
{
    run_list(masked_blocks, sizeof masked_blocks);
}

static void run_plain_blocks(void)
{
    run_list(plain_blocks, sizeof plain_blocks);
}

static void run_masked_words(void)
{
    run_list(masked_words, sizeof masked_words);
}

static void run_plain_words(void)
{
    run_list(plain_words, sizeof plain_words);
}

static void run_colours(void)
{
    run_list(colours, sizeof colours);
}

static void run_screen(void)
{
    run_list(screen, sizeof screen);
}

/* ---- lists with marks */

static void run_marked(const uint8_t *list, size_t length)
{
    linkshoar_ran r = linkshoar_list_run_marked(ready(), memory, WORDS, serial, 256, marks, sizeof marks, list, length);
    sink += r.number + r.state.colour;
}

static void mark_blocks(void)
{
    run_marked(masked_blocks, sizeof masked_blocks);
}

static void mark_words(void)
{
    run_marked(masked_words, sizeof masked_words);
}

/* A link's walk. */
static void walk_marks(void)
{
    uint32_t sum = 0;
    linkshoar_marked m = linkshoar_marks_next(every_sixteenth, 64, 0);
    for (; m.found; m = linkshoar_marks_next(every_sixteenth, 64, m.row + 1))
        sum += m.row;
    sink += sum;
}

/* ---- fills */

static void plan_columns(uint32_t first, uint32_t end)
{
    linkshoar_filled r = linkshoar_fill(512, 0, 512, first, end, 0x00FF, 0x1234, 0, plan, sizeof plan);
    sink += r.number + r.bytes;
}

static void plan_blocks(void)
{
    plan_columns(3, 509);
}

static void plan_words(void)
{
    plan_columns(3, 5);
}

/* A results page by one call, and its rectangles by a call for each with the buffer moved along. */
static void plan_page(void)
{
    linkshoar_paged r = linkshoar_page(512, 0, page, sizeof page, plan, sizeof plan);
    sink += r.number + (uint32_t)r.bytes;
}

static void plan_singly(void)
{
    size_t at = 0;
    for (int i = 0; i < RECTANGLES; i++) {
        rectangle q = rectangles[i];
        linkshoar_filled r = linkshoar_fill(512, q.first_row, q.end_row, q.first_column, q.end_column, q.mask, q.colour, 0, plan + at,
                                            sizeof plan - at);
        if (r.number)
            break;
        at += r.bytes;
    }
    sink += (uint32_t)at;
}

/* ---- clocks */

static void run_panel(linkshoar_vram state, uint32_t blank)
{
    linkshoar_shown r = linkshoar_panel_run(state, serial, 256, linkshoar_palette_fresh(), table, 768, 512, blank, out, sizeof out);
    sink += r.number + out[5];
}

static void show_panel(void)
{
    run_panel(ready(), 0);
}

static void show_panel_six(void)
{
    linkshoar_shown r = linkshoar_panel_run_six(ready(), serial, 256, linkshoar_palette_fresh(), table, 768, 512, 0, out, sizeof out);
    sink += r.number + out[5];
}

static void show_panel_16(void)
{
    linkshoar_vram state = ready();
    state.stop = 16;
    run_panel(state, 0);
}

static void blank_panel(void)
{
    run_panel(ready(), 1);
}

static void clock_serial(void)
{
    linkshoar_vram s = ready();
    uint32_t sum = 0;
    for (int i = 0; i < 1024; i++) {
        linkshoar_clocked r = linkshoar_serial_clock(s, serial, 256);
        s = r.state;
        sum += r.word;
    }
    sink += sum;
}

/* ---- palette accesses */

static void write_palette(void)
{
    linkshoar_palette p = linkshoar_palette_fresh();
    for (int i = 0; i < 1024; i++)
        p = linkshoar_palette_write(p, table, 768, 1, (uint8_t)i).state;
    sink += p.address;
}

static void read_palette(void)
{
    linkshoar_palette p = linkshoar_palette_fresh();
    uint32_t sum = 0;
    for (int i = 0; i < 1024; i++) {
        linkshoar_accessed r = linkshoar_palette_read(p, table, 768, 1);
        p = r.state;
        sum += r.byte;
    }
    sink += sum;
}

const work linkshoar_works[WORKS] = {
    {"block write in a list, masked", run_masked_blocks, FIELDS},
    {"block write in a list, plain", run_plain_blocks, FIELDS},
    {"word write in a list, masked", run_masked_words, FIELDS},
    {"word write in a list, plain", run_plain_words, FIELDS},
    {"colour load in a list", run_colours, FIELDS},
    {"full-screen fill's list, a field", run_screen, 1 + 512 * 128},
    {"block write in a list, with marks", mark_blocks, FIELDS},
    {"word write in a list, with marks", mark_words, FIELDS},
    {"walk from marked row to marked row", walk_marks, MARKED},
    {"planned block", plan_blocks, 1 + 512 * 128},
    {"planned word", plan_words, 1024},
    {"planned page, a cycle", plan_page, PAGE_CYCLES},
    {"its rectangles one by one, a cycle", plan_singly, PAGE_CYCLES},
    {"panel pixel shown", show_panel, 512},
    {"panel pixel shown, six bits", show_panel_six, 512},
    {"panel pixel shown, partitions of 16", show_panel_16, 512},
    {"panel pixel blanked", blank_panel, 512},
    {"serial clock", clock_serial, 1024},
    {"palette write", write_palette, 1024},
    {"palette read", read_palette, 1024},
};
