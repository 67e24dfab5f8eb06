/* The working of docs/PENCIL.md by other means: whole words and shifts, where the plain engine goes bit by bit; the words after by the second
 * implementation and by the library's two engines. test/paper.sh compares what this prints with the page and with crates/paper. */
#include "compare.h"
#include "model.h"

#include <stdio.h>
#include <string.h>

enum { WORDS = 4 * 512, COLOUR = 0xE35D, MASK = 0xFFF7 };

typedef linkshoar_ran list_run(linkshoar_vram state, uint16_t *memory, size_t words, uint16_t *serial, size_t serial_words,
                               const uint8_t *list, size_t length);

static void row_of_word(const char *name, unsigned word)
{
    printf("%-18s", name);
    for (int b = 15; b >= 0; b--)
        printf("%3u", word >> b & 1);
    printf("\n");
}

static void row_of_quads(const char *name, unsigned step, unsigned first)
{
    printf("%-18s", name);
    for (int quad = 3; quad >= 0; quad--)
        for (int n = 0; n < 4; n++)
            printf("%3u", step * (unsigned)quad + first);
    printf("\n");
}

static void work(unsigned j, model_field f, unsigned before)
{
    unsigned set = 15 * (f.data >> j & 0x1111), covered = 0xFF * (f.strobes & 1) + 0xFF00 * (f.strobes >> 1);
    unsigned left = set & MASK, written = left & covered, after = (before | written) ^ (written & ~COLOUR);
    printf("\ncolumn %u of the block\n%-18s", j, "bit");
    for (int b = 15; b >= 0; b--)
        printf("%3d", b);
    printf("\n");
    row_of_quads("its quad", 1, 0);
    row_of_quads("column mask's bit", 4, j);
    row_of_word("  is set", set);
    row_of_word("mask in force", MASK);
    row_of_word("left", left);
    row_of_word("strobe covers", covered);
    row_of_word("colour", COLOUR);
    row_of_word("before", before);
    row_of_word("after", after);
    printf("%04X becomes %04X\n", before, after);
}

/* Both must answer and leave the same; then it is printed. */
static void say_engine(const char *name, list_run *ours, list_run *theirs, const uint8_t *list, size_t length, unsigned first, const uint16_t *before)
{
    memset(memory_a, 0, 2 * WORDS), memset(memory_b, 0, 2 * WORDS);
    memcpy(memory_a + first, before, 8), memcpy(memory_b + first, before, 8);
    linkshoar_ran a = ours(linkshoar_vram_fresh(), memory_a, WORDS, serial_a, 256, list, length);
    linkshoar_ran b = theirs(model_vram_fresh(), memory_b, WORDS, serial_b, 256, list, length);
    if (a.number != b.number || a.place != b.place || !vram_same(a.state, b.state))
        differ(name);
    same_words(name, memory_a, memory_b, WORDS);
    printf("%s engine: number %u, the four words", name, b.number);
    for (int j = 0; j < 4; j++)
        printf(" %04X", memory_b[first + (unsigned)j]);
    printf("\n");
}

int main(void)
{
    static const uint16_t before[] = {0x8142, 0x8100, 0x81FF, 0x8037};
    uint8_t list[4 * LINKSHOAR_FIELD_BYTES];
    size_t n = linkshoar_put_load_colour(list, COLOUR, LINKSHOAR_STROBES_BOTH);
    n += linkshoar_put_load_mask(list + n, MASK, LINKSHOAR_STROBES_BOTH);
    size_t at = n;
    n += linkshoar_put_block_write(list + n, 3, 6, 0xFF96, LINKSHOAR_MASKING_MASKED, 0, LINKSHOAR_STROBES_LOW);
    n += linkshoar_put_reset_refresh(list + n);
    model_field f = model_field_read(list + at);
    unsigned first = f.row * 512 + (f.column & ~3u);
    printf("list");
    for (size_t i = 0; i < n; i++)
        printf(" %02X", list[i]);
    printf("\nfirst word %u\n", first);
    for (unsigned j = 0; j < 4; j++)
        work(j, f, before[j]);
    printf("\n");
    say_engine("plain", linkshoar_pencil_run, model_pencil_run, list, n, first, before);
    say_engine("fast", linkshoar_list_run, model_list_run, list, n, first, before);
    return 0;
}
