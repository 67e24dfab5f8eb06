/* A results page on a panel: a page of fills planned, its list run, rows transferred, shown through the palette, and written as a picture.
 *   demo PICTURE.png
 * Each result stands in the low byte of the words, its mark in the high byte: amber preliminary, green final. The palette is saved, lost and
 * written back first. Two preliminary results are rechecked and stand in reverse video, and the whole screen is sent to the panel. In the end
 * the rerun of one has come: its line is cleared and painted anew through mask 00FF, over its mark, which is still amber; the other waits,
 * its old result still legible. Of that only the rows are sent that the rerun's list has marked. */
#include "glyphs.h"
#include "linkshoar.h"

#include <stdio.h>
#include <stdlib.h>
#include <string.h>

enum { ROWS = 320, COLUMNS = LINKSHOAR_COLUMNS };
enum { HIV = 64, HBS = 100, HCV = 136, SYPHILIS = 172, CMV = 208, LEGEND = 272 }; /* the lines, by their first row */
enum { CELL = 292, VALUE = 300 };                                                 /* the columns where a value's cell and its letters begin */
enum { DARK = 0, AMBER = 1, GREEN = 2, LABEL = 3, RESULT = 4, TITLE = 5, LINE = 6 }; /* palette entries */

#define PICTURE 0x1FECEB32u /* the check sum of the pixels of docs/page.png */

enum { MOST_RECTANGLES = 2000, MOST_LIST = 2 * LINKSHOAR_LIST_BYTES };

static uint16_t memory[ROWS * COLUMNS], serial[LINKSHOAR_SERIAL_WORDS];
static uint8_t table[LINKSHOAR_TABLE_BYTES], list[MOST_LIST], picture[ROWS][COLUMNS][3];
static uint8_t rectangles[MOST_RECTANGLES * LINKSHOAR_RECTANGLE_BYTES], marks[LINKSHOAR_MARKS_BYTES];
static size_t named; /* bytes of rectangles that are to be drawn */
static linkshoar_vram state;
static unsigned long fills, calls, cycles, words_alone, rows_sent;

static void must(uint32_t number, const char *what)
{
    if (number != LINKSHOAR_DONE) {
        fprintf(stderr, "%s: %s\n", what, linkshoar_strerror(number));
        exit(1);
    }
}

/* ---- drawing: rectangles are named, and drawn together as one page: its list is planned by one call and run by another */

static void fill(uint32_t row, uint32_t column, uint32_t height, uint32_t width, uint16_t mask, uint16_t colour)
{
    if (named == sizeof rectangles) {
        fprintf(stderr, "too many rectangles\n");
        exit(1);
    }
    named += linkshoar_put_rectangle(rectangles + named, (uint16_t)row, (uint16_t)(row + height), (uint16_t)column,
                                     (uint16_t)(column + width), mask, colour);
    words_alone += (unsigned long)height * width;
}

static void draw(void)
{
    linkshoar_paged plan = linkshoar_page(ROWS, state.persistent, rectangles, named, list, sizeof list);
    must(plan.number, "page");
    linkshoar_ran ran = linkshoar_list_run_marked(state, memory, ROWS * COLUMNS, serial, LINKSHOAR_SERIAL_WORDS, marks, sizeof marks, list,
                                                  plan.bytes);
    must(ran.number, "list");
    state = ran.state;
    fills += named / LINKSHOAR_RECTANGLE_BYTES, calls += 2, cycles += plan.cycles;
    named = 0;
}

/* A result's colour goes to the low byte. The high byte takes a mark, or says how the result is shown. */
static void paint(uint32_t row, uint32_t column, uint32_t height, uint32_t width, uint8_t entry)
{
    fill(row, column, height, width, 0x00FF, entry);
}

static void high_bytes(uint32_t row, uint32_t column, uint32_t width, uint8_t value)
{
    fill(row, column, 22, width, 0xFF00, (uint16_t)(value << 8));
}

static void mark(uint32_t row, uint32_t column, uint8_t entry)
{
    high_bytes(row, column, 22, entry);
}

/* A cell of eight letters, which carries no mark: one fill, and the results below stay. */
static void reverse(uint32_t row, uint32_t column)
{
    high_bytes(row, column, 110, LINKSHOAR_HIGH_REVERSE);
}

static void upright(uint32_t row, uint32_t column)
{
    high_bytes(row, column, 110, LINKSHOAR_HIGH_RESULT);
}

/* Text of 10 by 14 words a letter: each lit stretch of a letter's row is one fill. */
static void text(uint32_t row, uint32_t column, const char *letters, uint8_t entry)
{
    for (; *letters; letters++, column += 12)
        for (size_t g = 0; g < sizeof glyphs / sizeof *glyphs; g++)
            if (glyphs[g].letter == *letters)
                for (uint32_t r = 0; r < 7; r++)
                    for (uint32_t c = 0; c < 5; c++) {
                        uint32_t n = 0;
                        while (c + n < 5 && glyphs[g].rows[r] >> (4 - c - n) & 1)
                            n++;
                        if (n)
                            paint(row + 2 * r, column + 2 * c, 2, 2 * n, entry);
                        c += n;
                    }
}

/* The mark is named first: at no point of the running is the result there without it. */
static void result(uint32_t row, const char *label, const char *value, uint8_t status)
{
    mark(row, 24, status);
    text(row + 4, 64, label, LABEL);
    text(row + 4, VALUE, value, RESULT);
    paint(row + 29, 24, 1, 464, LINE);
}

static void page(void)
{
    paint(0, 0, ROWS, COLUMNS, DARK);
    paint(0, 0, 44, COLUMNS, TITLE);
    text(15, 24, "BLOOD SCREENING", RESULT);
    text(15, 360, "UNIT 0417", RESULT);
    result(HIV, "HIV AB", "NEG 0.12", GREEN);
    result(HBS, "HBS AG", "NEG 0.08", GREEN);
    result(HCV, "HCV AB", "POS 3.71", AMBER);
    result(SYPHILIS, "SYPHILIS", "NEG 0.21", GREEN);
    result(CMV, "CMV AB", "NEG 0.35", AMBER);
    mark(LEGEND, 24, AMBER);
    text(LEGEND + 4, 58, "PRELIMINARY", LABEL);
    mark(LEGEND, 226, GREEN);
    text(LEGEND + 4, 260, "FINAL", LABEL);
    text(LEGEND + 4, 392, "RECHECK", RESULT);
    reverse(LEGEND, 378);
    draw();
}

/* Two preliminary results are rechecked. */
static void recheck(void)
{
    reverse(HCV, CELL);
    reverse(CMV, CELL);
    draw();
}

/* The rerun of a preliminary result has come: its whole line, the mark's words too, is cleared and painted anew through mask 00FF, which
 * leaves the mark; then its value stands upright again. */
static void rerun(void)
{
    paint(HCV, 24, 22, 464, DARK);
    text(HCV + 4, 64, "HCV AB", LABEL);
    text(HCV + 4, VALUE, "POS 3.68", RESULT);
    upright(HCV, CELL);
    draw();
}

/* ---- the palette, by its accesses */

static void put(linkshoar_palette *palette, uint32_t select, uint8_t value)
{
    linkshoar_accessed done = linkshoar_palette_write(*palette, table, sizeof table, select, value);
    must(done.number, "palette write");
    *palette = done.state;
}

static uint8_t get(linkshoar_palette *palette, uint32_t select)
{
    linkshoar_accessed done = linkshoar_palette_read(*palette, table, sizeof table, select);
    must(done.number, "palette read");
    *palette = done.state;
    return done.byte;
}

static void colour(linkshoar_palette *palette, uint8_t entry, uint8_t red, uint8_t green, uint8_t blue)
{
    put(palette, LINKSHOAR_SELECT_ADDRESS, entry);
    put(palette, LINKSHOAR_SELECT_COLOUR, red);
    put(palette, LINKSHOAR_SELECT_COLOUR, green);
    put(palette, LINKSHOAR_SELECT_COLOUR, blue);
}

/* Reverse video shows entry 255 - e for e: for two entries, the same two colours, exchanged. */
static void colours_in_reverse(linkshoar_palette *palette, uint8_t one, uint8_t other)
{
    const uint8_t *a = table + 3 * one, *b = table + 3 * other;
    colour(palette, 255 - one, b[0], b[1], b[2]);
    colour(palette, 255 - other, a[0], a[1], a[2]);
}

/* The service tool's two jobs: the palette read out whole, and written back. */
static void save(linkshoar_palette *palette, uint8_t *saved)
{
    put(palette, LINKSHOAR_SELECT_READ_ADDRESS, 0);
    for (size_t i = 0; i < sizeof table; i++)
        saved[i] = get(palette, LINKSHOAR_SELECT_COLOUR);
}

static void write_back(linkshoar_palette *palette, const uint8_t *saved)
{
    put(palette, LINKSHOAR_SELECT_ADDRESS, 0);
    for (size_t i = 0; i < sizeof table; i++)
        put(palette, LINKSHOAR_SELECT_COLOUR, saved[i]);
}

/* A palette is lost at power-off: it is saved before and written back after. */
static void survive_power_off(linkshoar_palette *palette)
{
    uint8_t saved[sizeof table], before[sizeof table];
    memcpy(before, table, sizeof table);
    save(palette, saved);
    memset(table, 0, sizeof table);
    *palette = linkshoar_palette_fresh();
    write_back(palette, saved);
    if (memcmp(before, table, sizeof table)) {
        fprintf(stderr, "the palette did not come back\n");
        exit(1);
    }
}

/* ---- sending: the panel's bytes are the picture's, eight bits to a part. Transfers draw nothing, so they need no marks. */

static void send_row(linkshoar_palette palette, uint16_t row)
{
    enum { HALF_BYTES = 3 * LINKSHOAR_SERIAL_WORDS };
    for (uint8_t half = 0; half < 2; half++) {
        size_t bytes = linkshoar_put_full_transfer(list, row, half, 0);
        linkshoar_ran ran = linkshoar_list_run(state, memory, ROWS * COLUMNS, serial, LINKSHOAR_SERIAL_WORDS, list, bytes);
        must(ran.number, "transfer");
        linkshoar_shown shown = linkshoar_panel_run(ran.state, serial, LINKSHOAR_SERIAL_WORDS, palette, table, sizeof table,
                                                    LINKSHOAR_SERIAL_WORDS, 0, (uint8_t *)picture[row] + half * HALF_BYTES, HALF_BYTES);
        must(shown.number, "panel");
        state = shown.state;
    }
    rows_sent++;
}

static void send_screen(linkshoar_palette palette)
{
    for (uint16_t row = 0; row < ROWS; row++)
        send_row(palette, row);
    must(linkshoar_marks_clear(marks, sizeof marks), "clear");
}

/* Only the rows that have been written to since the last sending. */
static void send_marked(linkshoar_palette palette)
{
    linkshoar_marked next = linkshoar_marks_next(marks, sizeof marks, 0);
    for (; next.found; next = linkshoar_marks_next(marks, sizeof marks, next.row + 1))
        send_row(palette, (uint16_t)next.row);
    must(linkshoar_marks_clear(marks, sizeof marks), "clear");
}

/* Whether the whole screen, sent anew, is the picture that the marked rows have made, byte for byte. */
static int sent_enough(linkshoar_palette palette)
{
    static uint8_t before[sizeof picture];
    unsigned long sent = rows_sent;
    memcpy(before, picture, sizeof picture);
    send_screen(palette);
    rows_sent = sent;
    return !memcmp(before, picture, sizeof picture);
}

static uint32_t crc_of(const uint8_t *bytes, size_t n, uint32_t crc)
{
    for (size_t i = 0; i < n; i++) {
        crc ^= bytes[i];
        for (int b = 0; b < 8; b++)
            crc = crc & 1 ? 0xEDB88320u ^ crc >> 1 : crc >> 1;
    }
    return crc;
}

/* Whether two values that begin with the same three letters show them with the colours of letters and ground exchanged. */
static int exchanged(uint32_t row, uint32_t other)
{
    const uint8_t *lit = picture[other + 4][VALUE], *ground = picture[other][VALUE];
    for (uint32_t r = 0; r < 22; r++)
        for (uint32_t c = VALUE; c < VALUE + 36; c++)
            if (memcmp(picture[row + r][c], memcmp(picture[other + r][c], lit, 3) ? lit : ground, 3))
                return 0;
    return memcmp(lit, ground, 3) != 0;
}

static const char *what_is_wrong(linkshoar_palette palette)
{
    static const uint8_t result[3] = {247, 251, 255}; /* 61, 62, 63 in eight bits */
    if (memory[HCV * COLUMNS + 24] >> 8 != AMBER || memory[CMV * COLUMNS + 24] >> 8 != AMBER)
        return "a mark is lost";
    if (memcmp(picture[HCV + 4][VALUE], picture[HIV + 4][VALUE], 3)) /* the corners of P and N, both lit */
        return "the rerun is not upright";
    if (!exchanged(CMV, HIV))
        return "the old result is not legible";
    if (memcmp(picture[HIV + 4][VALUE], result, 3))
        return "a colour is not the palette's in eight bits";
    if (!sent_enough(palette))
        return "a row that changed was not sent";
    if (~crc_of((const uint8_t *)picture, sizeof picture, ~0u) != PICTURE)
        return "the picture is not docs/page.png's";
    return NULL;
}

/* ---- a PNG with nothing compressed */

static void four(uint8_t *at, uint32_t n)
{
    at[0] = (uint8_t)(n >> 24), at[1] = (uint8_t)(n >> 16), at[2] = (uint8_t)(n >> 8), at[3] = (uint8_t)n;
}

static void chunk(FILE *file, const char *name, const uint8_t *bytes, uint32_t n)
{
    uint8_t word[4];
    four(word, n);
    fwrite(word, 1, 4, file);
    fwrite(name, 1, 4, file);
    fwrite(bytes, 1, n, file);
    four(word, ~crc_of(bytes, n, crc_of((const uint8_t *)name, 4, ~0u)));
    fwrite(word, 1, 4, file);
}

static void write_picture(const char *path)
{
    enum { LINE_BYTES = 1 + 3 * COLUMNS };
    static uint8_t packed[2 + ROWS * (5 + LINE_BYTES) + 4];
    uint8_t head[13] = {0, 0, 0, 0, 0, 0, 0, 0, 8, 2, 0, 0, 0};
    uint32_t a = 1, b = 0;
    size_t at = 2;
    FILE *file = fopen(path, "wb");
    if (!file) {
        perror(path);
        exit(1);
    }
    packed[0] = 0x78, packed[1] = 0x01;
    for (uint32_t row = 0; row < ROWS; row++) {
        uint8_t *block = packed + at;
        block[0] = row + 1 == ROWS;
        block[1] = (uint8_t)LINE_BYTES, block[2] = LINE_BYTES >> 8;
        block[3] = (uint8_t)~LINE_BYTES, block[4] = (uint8_t)(~LINE_BYTES >> 8);
        block[5] = 0;
        memcpy(block + 6, picture[row], 3 * COLUMNS);
        for (size_t i = 0; i < LINE_BYTES; i++)
            a = (a + block[5 + i]) % 65521, b = (b + a) % 65521;
        at += 5 + LINE_BYTES;
    }
    four(packed + at, b << 16 | a);
    four(head, COLUMNS);
    four(head + 4, ROWS);
    fwrite("\x89PNG\r\n\x1A\n", 1, 8, file);
    chunk(file, "IHDR", head, sizeof head);
    chunk(file, "IDAT", packed, (uint32_t)at + 4);
    chunk(file, "IEND", head, 0);
    fclose(file);
}

int main(int argc, char **argv)
{
    linkshoar_palette palette = linkshoar_palette_fresh();
    state = linkshoar_vram_fresh();
    colour(&palette, DARK, 3, 5, 9);
    colour(&palette, AMBER, 63, 44, 0);
    colour(&palette, GREEN, 4, 48, 16);
    colour(&palette, LABEL, 40, 44, 50);
    colour(&palette, RESULT, 61, 62, 63);
    colour(&palette, TITLE, 8, 18, 34);
    colour(&palette, LINE, 13, 17, 23);
    colours_in_reverse(&palette, DARK, RESULT);
    survive_power_off(&palette);
    page();
    recheck();
    send_screen(palette);
    unsigned long whole = rows_sent;
    rerun();
    send_marked(palette);
    write_picture(argc > 1 ? argv[1] : "page.png");
    printf("%lu fills, %lu cycles; word by word %lu\n", fills, cycles, words_alone);
    printf("%lu calls drew them, two for each page; fill by fill it would be %lu, so %lu fewer\n", calls, 2 * fills, 2 * fills - calls);
    printf("%lu rows sent, and then the %lu that the rerun marked\n", whole, rows_sent - whole);
    const char *wrong = what_is_wrong(palette);
    if (wrong)
        printf("%s\n", wrong);
    return wrong != NULL;
}
