/* docs/PIECES.md's worked cuttings: reads what is asked of each line of its text blocks and prints the line again with the answer, by the
 * library or by the second implementation.
 *   protocol library|model < PAGE */
#include "linkshoar.h"
#include "model.h"

#include <stdio.h>
#include <stdlib.h>
#include <string.h>

enum { WORDS = 512, SERIAL = LINKSHOAR_SERIAL_WORDS, MOST = 200 };

static uint16_t memory[WORDS], serial[SERIAL];
static linkshoar_vram state;
static linkshoar_pieces pieces;
static int library;

static void begin(void)
{
    memset(memory, 0, sizeof memory);
    memset(serial, 0, sizeof serial);
    state = linkshoar_vram_fresh();
    pieces = library ? linkshoar_pieces_fresh() : model_pieces_fresh();
}

static linkshoar_taken keep(linkshoar_taken t)
{
    state = t.state;
    pieces = t.pieces;
    return t;
}

static void take(const char *hex)
{
    uint8_t bytes[MOST];
    size_t length = 0;
    printf("take");
    for (unsigned byte, read; length < MOST && sscanf(hex, "%x%n", &byte, &read) == 1; hex += read) {
        bytes[length++] = (uint8_t)byte;
        printf(" %02X", byte);
    }
    linkshoar_taken t = keep(library ? linkshoar_pieces_take(state, pieces, memory, WORDS, serial, SERIAL, bytes, length)
                                     : model_pieces_take(state, pieces, memory, WORDS, serial, SERIAL, bytes, length));
    printf(": %u at %llu; %u held from %u; ", t.number, (unsigned long long)t.place, pieces.count, pieces.start);
    if (pieces.open)
        printf("open from %llu\n", (unsigned long long)pieces.left);
    else
        printf("none open\n");
}

static void end(void)
{
    linkshoar_taken t = keep(library ? linkshoar_pieces_end(state, pieces, memory, WORDS, serial, SERIAL)
                                     : model_pieces_end(state, pieces, memory, WORDS, serial, SERIAL));
    printf("end: %u at %llu\n", t.number, (unsigned long long)t.place);
}

/* What stands before the colon is asked. */
static void ask(char *line)
{
    unsigned at;
    char *colon = strchr(line, ':');
    if (colon)
        *colon = 0;
    if (!strncmp(line, "take", 4))
        take(line + 4);
    else if (!strcmp(line, "end"))
        end();
    else if (sscanf(line, "word %u", &at) == 1 && at < WORDS)
        printf("word %u: %04X\n", at, memory[at]);
    else if (!strcmp(line, "persistent"))
        printf("persistent: %u\n", state.persistent);
    else
        exit(2);
}

int main(int argc, char **argv)
{
    char line[MOST];
    int on = 0;
    library = argc > 1 && !strcmp(argv[1], "library");
    while (fgets(line, sizeof line, stdin)) {
        line[strcspn(line, "\n")] = 0;
        if (!strcmp(line, "```text"))
            on = 1, begin();
        else if (!strcmp(line, "```") && on)
            on = 0, printf("\n");
        else if (on)
            ask(line);
    }
    return 0;
}
