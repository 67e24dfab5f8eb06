/* Runs each list of the corpus on 64 rows and a fresh state, by the library's two engines and by the second implementation, and compares all
 * that they answer and leave; then the library takes it in pieces, cut at every place, and that is compared with the whole list. A file is
 * named NAME-number-place.list after what document 01 asks for it. */
#include "compare.h"
#include "cutting.h"
#include "model.h"

#include <stdio.h>
#include <stdlib.h>
#include <string.h>

enum { WORDS = 64 * 512 };

typedef linkshoar_ran list_run(linkshoar_vram state, uint16_t *memory, size_t words, uint16_t *serial, size_t serial_words,
                               const uint8_t *list, size_t length);

static void lend_words(void)
{
    for (unsigned i = 0; i < WORDS; i++)
        memory_a[i] = memory_b[i] = (uint16_t)(i * 40503u >> 3);
    for (unsigned i = 0; i < 256; i++)
        serial_a[i] = serial_b[i] = (uint16_t)(i * 25 + 7);
}

static int try_engine(const char *path, list_run *ours, list_run *theirs, unsigned number, unsigned place, const uint8_t *list, size_t bytes)
{
    lend_words();
    linkshoar_ran a = ours(linkshoar_vram_fresh(), memory_a, WORDS, serial_a, 256, list, bytes);
    linkshoar_ran b = theirs(model_vram_fresh(), memory_b, WORDS, serial_b, 256, list, bytes);
    if (a.number != number || a.place != place || b.number != number || b.place != place || !vram_same(a.state, b.state)) {
        printf("DIFFERENCE: %s: %u at %u wanted, the library %u at %u, the second implementation %u at %u\n", path, number, place, a.number,
               (unsigned)a.place, b.number, (unsigned)b.place);
        return 1;
    }
    same_all();
    return 0;
}

/* Cut at every place into two pieces; byte by byte; and twenty times at random. */
static void try_pieces(const uint8_t *list, size_t bytes)
{
    memcpy(bytes_a, list, bytes);
    memcpy(bytes_b, list, bytes);
    for (size_t n = 0; n <= bytes + 21; n++) {
        lend_words();
        if (n <= bytes)
            same_cut(linkshoar_vram_fresh(), WORDS, 256, bytes, n, bytes + 1);
        else
            same_cut(linkshoar_vram_fresh(), WORDS, 256, bytes, n % 2, n == bytes + 1 ? 1 : 0);
    }
    same_all();
}

static int try_file(const char *path)
{
    static uint8_t list[65536];
    unsigned number, place;
    const char *end = strrchr(path, '.'), *at = end;
    FILE *file = fopen(path, "rb");
    if (!file) {
        perror(path);
        return 1;
    }
    size_t bytes = fread(list, 1, sizeof list, file);
    fclose(file);
    for (int dashes = 0; at > path && dashes < 2;)
        dashes += *--at == '-';
    if (sscanf(at, "-%u-%u", &number, &place) != 2) {
        printf("%s: no number and place in its name\n", path);
        return 1;
    }
    if (try_engine(path, linkshoar_list_run, model_list_run, number, place, list, bytes)
        || try_engine(path, linkshoar_pencil_run, model_pencil_run, number, place, list, bytes))
        return 1;
    try_pieces(list, bytes);
    return 0;
}

int main(int argc, char **argv)
{
    int bad = argc < 2;
    sow(1);
    for (int i = 1; i < argc; i++)
        bad |= try_file(argv[i]);
    if (!bad)
        printf("%d lists of the corpus on two engines and in pieces, no difference\n", argc - 1);
    return bad;
}
