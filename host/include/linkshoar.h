/* Linkshoar: a proved stand-in for one TMS55161 video RAM and one Am81C176 palette, a planner of shortest fills, marks of the rows that a
 * link must send, a second engine that can be followed with a pencil, lists that come in pieces over a slow port, and for other boards the
 * counters of an Am8150 and the colours of an Am8159.
 *
 * The caller holds the states and lends the memory; nothing is allocated, nothing is kept, and no call blocks. A state goes in by value and
 * the new one comes back in the answer: keep it, since the next call takes it. Every call takes every input: what it cannot do it refuses
 * with a number, and a refusal changes nothing that was lent, hands the state back as it came and answers zeros besides, but for the place
 * in a list or a page. Two calls differ on purpose: linkshoar_pieces_take draws a list while it comes, so a field that it refuses leaves
 * the fields before it drawn, and linkshoar_pieces_end ends the list also where it refuses it (see "Lists in pieces").
 *
 * What C owes: lengths that are true, in words or bytes as the pointer's type is; slices that do not overlap. A state that no chip can have
 * is refused with 1: yes-or-no bytes in it are 0 or 1, and the structs below say what the others may be; a fresh state, and what calls that
 * are not refused make of it, is never such; nor is what linkshoar_pieces_take hands back with a refused field. A yes-or-no argument takes
 * any number. Null with length 0 is a lawful empty slice; but a lent linkshoar_palette * is never null, and it stands apart from the table.
 *
 * Answers are compared member by member: the bytes between the members of a struct are not determined.
 *
 * What is lent:
 *   memory   512 words to a row, 1 to 512 rows: row r, column c is word 512 * r + c. Its length says how many rows are fitted.
 *   serial   the serial register, 256 words: transfers copy half a row of the memory to it, clocks read it.
 *   table    the palette's 256 entries, 768 bytes: entry e has red at 3 * e, green at 3 * e + 1, blue at 3 * e + 2. The low six bits of
 *            a byte are read, 0 to 63. The caller may write it in place, or by linkshoar_palette_write as the chip is written. The
 *            Am8159's calls are lent that chip's table, 64 words: see "The Am8159's colours" below.
 *   list     cycles as bytes: see "Lists" below; a piece of one: see "Lists in pieces".
 *   marks    a mark for each of 512 rows, 64 bytes: see "Marks of rows" below.
 *   rectangles   a page's rectangles as bytes: see "Pages" below.
 */
#ifndef LINKSHOAR_H
#define LINKSHOAR_H

#include <stddef.h>
#include <stdint.h>

#ifdef __cplusplus
extern "C" {
#endif

/* Since 4.12.0 there are the Am8159's colours: linkshoar_colours_fresh, linkshoar_colours_write, linkshoar_colours_write_low,
 * linkshoar_colours_write_high, linkshoar_colours_read, linkshoar_colours_read_low, linkshoar_colours_read_high, linkshoar_colours_pixel,
 * and numbers 21 and 22 are new. No program must change.
 * Since 4.11.0 a list can be taken a piece at a time: linkshoar_pieces_fresh, linkshoar_pieces_take, linkshoar_pieces_end. No program must
 * change; one that gathers a list from a slow port before it runs it may hand each piece on as it comes (see "Lists in pieces"), if it can
 * bear that a refused list is drawn in part, and that it may leave the mask persistent.
 * Since 4.10.0 there is a second engine for lists, the plain one: linkshoar_pencil_run, linkshoar_pencil_run_marked. No program must change;
 * where a row's mark is said to be set by a marked run, the marked run of either engine is meant.
 * Since 4.9.0 a list can be run with marks of rows: linkshoar_list_run_marked, linkshoar_marks_clear, linkshoar_marks_next, and number 18 is
 * new. No program must change; one whose link sends the whole screen after each list may send the marked rows alone (see "Marks of rows").
 * Since 4.8.0 there is linkshoar_page: a page of fills by one call. No program must change; one that fills rectangle after rectangle may name
 * them in one list (linkshoar_put_rectangle) and call once.
 * Since 4.7.0 a list must not leave its mask behind: one with a mask load and no reset refresh after it is refused whole with number 20, new,
 * at the offset of its last mask load. A program whose lists load the mask must change: each such list ends with linkshoar_put_reset_refresh,
 * or has it somewhere after its last mask load, and what is to be drawn through the mask stands before it in the same list. One list can no
 * longer load a mask for the next to draw through, or to reset; the second of such a pair is accepted as before and would draw without that
 * mask, so the two are joined. The reset refresh brings partitions of 128 back, whether this list or an earlier one has set stop points: a
 * program that uses them sets them again after it. A list without a mask load is judged as before, also where the mask came in persistent:
 * a list of one reset refresh puts a state right that an older program kept so.
 * Since 4.6.0 linkshoar_vram has a last member, stop: the length of a partition of the serial register. Compiled again, a program that takes
 * its states from linkshoar_vram_fresh and from answers need not change. One that makes a linkshoar_vram itself, or keeps its members one by
 * one, must: stop is 128 where no list has set it, and a state with a stop of 0, as {0} has, is refused with 1. The struct has its old size:
 * a state that an older program kept as bytes has any byte there, and 128 is to be put in its place. In a list tag 9 is no longer unknown,
 * and number 19 is new.
 * Since 4.5.0 linkshoar_panel_run writes red, green and blue in eight bits, 0 to 255, and no longer in six, 0 to 63. A program that relied on
 * six bits must change, and it compiles unchanged, so look for every call: it calls linkshoar_panel_run_six, which takes the same arguments
 * and answers what linkshoar_panel_run answered before; or, if it widened the six bits itself, it leaves that to linkshoar_panel_run, which
 * makes 4 * v + v / 16 of v. One that widened by another rule and must keep its colours calls linkshoar_panel_run_six.
 * Since 4.4.0 a high byte of 255 is no mark: the panel shows the low byte inverted, whatever the pixel mask. A program whose words may have a
 * high byte of 255 must change: a mark of 255 takes another high byte, 1 to 254, and the entry that this names takes the mark's colour; a
 * program that fills both bytes with FFFF to show entry 255 fills them with 00FF.
 * Since 4.3.0 the two palette reads take the table, and after a read of blue the colour registers take the next entry and the address goes
 * up by one: a program that then reads the same entry again, writes colours or reads the address sets the address first. */
#define LINKSHOAR_VERSION "4.12.0"

/* The numbers given back. Where several apply the lowest is given; in a list the first bad field wins, then its lowest number, and 20 is
 * given only where no field is refused; in a page the first bad field wins over 13 and 15; 18 comes straight after 3, before 5 and before
 * any field. Of a list in pieces 20 is given by the last call alone, and 4 for a field that is then unfinished wins over it. */
enum {
    LINKSHOAR_DONE = 0,
    LINKSHOAR_STATE_EXCLUDED = 1,
    LINKSHOAR_MEMORY_LENGTH = 2,
    LINKSHOAR_REGISTER_LENGTH = 3,
    LINKSHOAR_FIELD_UNREADABLE = 4,
    LINKSHOAR_ROW_NOT_FITTED = 5,
    LINKSHOAR_COLUMN_OVER = 6,
    LINKSHOAR_STROBES_OTHER = 7,
    LINKSHOAR_MASKING_OTHER = 8,
    LINKSHOAR_HALF_OR_TAP_OVER = 9,
    LINKSHOAR_NOT_LOADED = 10,
    LINKSHOAR_SELECT_OTHER = 11,
    LINKSHOAR_RECTANGLE_OUTSIDE = 12,
    LINKSHOAR_FILL_PERSISTENT = 13,
    LINKSHOAR_RUN_OVER = 14,
    LINKSHOAR_BUFFER_SHORT = 15,
    LINKSHOAR_SETTING_OTHER = 16,
    LINKSHOAR_VIDEO_OFF_OR_OVERRIDE = 17,
    LINKSHOAR_MARKS_LENGTH = 18,
    LINKSHOAR_PARTITION_OTHER = 19,
    LINKSHOAR_MASK_LEFT_BEHIND = 20,
    LINKSHOAR_ADDRESS_OR_DATA_OVER = 21,
    LINKSHOAR_NO_LOW_PART = 22
};

/* Sizes. */
enum {
    LINKSHOAR_COLUMNS = 512,        /* words to a row */
    LINKSHOAR_ROWS = 512,           /* rows at most */
    LINKSHOAR_SERIAL_WORDS = 256,   /* the serial register */
    LINKSHOAR_TABLE_BYTES = 768,    /* the palette's table: red, green, blue of 256 entries */
    LINKSHOAR_LIST_BYTES = 851974,  /* the longest list that a fill writes */
    LINKSHOAR_FIELD_BYTES = 13,     /* the longest field of a list */
    LINKSHOAR_RECTANGLE_BYTES = 15, /* a rectangle of a page */
    LINKSHOAR_MARKS_BYTES = 64,     /* a mark for each of 512 rows */
    LINKSHOAR_ADDRESSES = 262144,   /* the Am8150's addresses: 18 bits */
    LINKSHOAR_COLOURS_WORDS = 64    /* the Am8159's table */
};

/* The high bytes that are no mark: what the panel shows of a word then. Every other, 1 to 254, is a mark, and is shown whatever the low byte. */
enum {
    LINKSHOAR_HIGH_RESULT = 0,   /* the low byte, the result */
    LINKSHOAR_HIGH_REVERSE = 255 /* the low byte with all eight bits inverted, the result in reverse */
};

/* The palette's selects. */
enum {
    LINKSHOAR_SELECT_ADDRESS = 0,     /* the address; a write sets the phase to 0 */
    LINKSHOAR_SELECT_COLOUR = 1,      /* red, green or blue, as the phase says, and the phase moves on; after a write of blue the colour
                                         registers go to the entry at the address, after a read of blue they take it, to be read next; the
                                         address then goes up by one */
    LINKSHOAR_SELECT_PIXEL_MASK = 2,  /* the pixel mask */
    LINKSHOAR_SELECT_READ_ADDRESS = 3 /* written only: as select 0, then the colour registers take the entry, so that it can be read, and the
                                         address goes up by one */
};

/* How far a pan of the Am8150 reaches, in words. */
enum {
    LINKSHOAR_PAN_LEAST = -131072,
    LINKSHOAR_PAN_MOST = 131071
};

/* The Am8150's update modes: when the graphics processor has the display memory. */
enum {
    LINKSHOAR_UPDATE_RETRACE = 0,    /* in the retrace only */
    LINKSHOAR_UPDATE_OVERRIDE = 1,   /* always: no words are fetched */
    LINKSHOAR_UPDATE_INTERLEAVED = 2 /* between two words; not together with page mode */
};

/* The levels of the Am8159's outputs that have a name; a level of 0 to 15 is a step of colour, 15 the brightest. None is a voltage. */
enum {
    LINKSHOAR_LEVEL_SYNC = 16,  /* of green alone */
    LINKSHOAR_LEVEL_BLANK = 17,
    LINKSHOAR_LEVEL_BLACK = 18, /* reference black: an overlay's gun that is off; on the chip as dark as step 0 */
    LINKSHOAR_LEVEL_WHITE = 19  /* peak white: an overlay's gun that is on; on the chip brighter than step 15 */
};

/* The video RAM's registers. */
typedef struct {
    uint16_t colour, mask; /* colour: what a block write paints; mask: in force for masked writes while it is persistent */
    uint8_t persistent;    /* 1 from a mask load to a reset refresh; since 4.7.0 a list that loads the mask resets it: no call makes 1 of 0,
                              but for linkshoar_pieces_take, which may stop between the two */
    uint8_t loaded;        /* 1 once a full transfer has been made */
    uint8_t pointer;       /* the place in the serial register that the next clock reads */
    uint8_t waiting, tap;  /* waiting: 1 where a split transfer's tap waits for the end of the pointer's partition; else both are 0. A tap waits
                              only where loaded is 1, and in the half, 0 to 127 or 128 to 255, that the pointer is not in */
    uint8_t stop;          /* the length of a partition of the serial register: 16, 32, 64 or 128 */
} linkshoar_vram;

/* The palette's registers. */
typedef struct {
    uint8_t address;          /* the entry that the next colour written goes to, and that is taken after the next read of blue; 255 is followed
                                 by 0 */
    uint8_t phase;            /* whose turn it is: 0 red, 1 green, 2 blue */
    uint8_t red, green, blue; /* 0 to 63 */
    uint8_t mask;             /* the pixel mask: a pixel is ANDed with it */
} linkshoar_palette;

/* Where a list that comes in pieces stands: between two pieces the caller keeps it, as it keeps the state. */
typedef struct {
    uint64_t left;    /* the offset of the mask load that is still open, that is, has no reset refresh after it; 0 where none is */
    uint32_t start;   /* the offset in the list of the unfinished field, or where the next begins; of the field refused, where one was */
    uint32_t number;  /* the number that the list was refused with; 0 where it was not */
    uint8_t held[13]; /* the unfinished field's bytes, then zeros */
    uint8_t count;    /* how many are held, 12 at most */
    uint8_t open;     /* 1 where a mask load is still open, else 0 */
} linkshoar_pieces;

/* In every answer `number` is one of the numbers above, and `state` the state to go on with. */

typedef struct {
    uint32_t number, bytes, cycles; /* how many bytes the list has, and how many fields */
} linkshoar_filled;

typedef struct {
    uint32_t number;
    uint64_t place;         /* of 4 and 12: the offset of the field that is refused, in bytes from the first; else 0 */
    uint64_t bytes, cycles; /* of the joined list */
} linkshoar_paged;

typedef struct {
    linkshoar_vram state;
    uint32_t number;
    uint64_t place; /* of 4 to 10, and 19: the offset of the field that is refused, in bytes from the list's first; of 20: of the last mask
                       load; else 0 */
} linkshoar_ran;

typedef struct {
    linkshoar_vram state;
    linkshoar_pieces pieces; /* to go on with, as the state is */
    uint32_t number;
    uint64_t place; /* of 4 to 10, and 19: the offset of the field that is refused, in bytes from the list's first, not the piece's; of 20:
                       of the last mask load; else 0 */
} linkshoar_taken;

typedef struct {
    uint32_t number;
    uint32_t found, row; /* found: 1 where a row is marked from start on, and row is the first; else both are 0 */
} linkshoar_marked;

typedef struct {
    linkshoar_vram state;
    uint32_t number;
} linkshoar_shown;

typedef struct {
    linkshoar_vram state;
    uint16_t word;
    uint32_t number;
} linkshoar_clocked;

typedef struct {
    uint32_t number;
    uint16_t word;
} linkshoar_word;

typedef struct {
    linkshoar_palette state;
    uint8_t byte;
    uint32_t number;
} linkshoar_accessed;

typedef struct {
    uint32_t number;
    uint8_t byte;
} linkshoar_byte;

/* The Am8150's registers and counters. */
typedef struct {
    uint32_t top_of_frame, counter; /* 18 bits each; the counter is the address of the next word */
    uint8_t offset, refresh;        /* refresh: the refresh counter */
    uint8_t cycles;                 /* refresh cycles at each horizontal sync, 0 to 3 */
    uint8_t update;                 /* one of LINKSHOAR_UPDATE_ */
    uint8_t page, video, inhibited; /* 0 or 1; inhibited: horizontal syncs do not add the Offset */
} linkshoar_controller;

typedef struct {
    linkshoar_controller state;
    uint32_t number;
} linkshoar_controlled;

typedef struct {
    linkshoar_controller state;
    uint32_t number;
    uint8_t bank, row, column; /* the address of the word fetched: bits 17 and 16, 15 to 8, 7 to 0 */
} linkshoar_fetched;

/* What the Am8159's three guns, the monitor's red, green and blue, show: each a step, 0 to 15, or one of LINKSHOAR_LEVEL_. */
typedef struct {
    uint8_t red, green, blue;
} linkshoar_levels;

/* The Am8159's state. */
typedef struct {
    uint8_t waiting, low;                  /* waiting: 1 where a low part waits for its high part, and low is that part; else both are 0 */
    linkshoar_levels first, second, third; /* the outputs to come, first the next. The levels of each are such as a pixel makes: green at
                                              sync with red and blue at blank; all at blank; each at black or white; each at a step */
} linkshoar_colours;

/* What a pixel puts in; a yes-or-no byte that is not 0 is yes. C cuts what is assigned to a byte to its low eight bits, so compare with 0 first,
 * as in inputs.blank = (status & 0x100) != 0. */
typedef struct {
    uint32_t address; /* of its colour in the table, 0 to 63 */
    uint8_t horizontal_sync, vertical_sync, blank;
    uint8_t overlay, red_on, green_on, blue_on; /* overlay: the guns, on or off, are shown in place of the colour */
    uint8_t blink;
} linkshoar_inputs;

typedef struct {
    linkshoar_colours state;
    uint32_t number;
} linkshoar_coloured;

typedef struct {
    linkshoar_colours state;
    linkshoar_levels levels; /* what comes out at this clock */
    uint32_t number;
} linkshoar_emitted;

/* ---- Lists
 *
 * A list is fields, one after the other: a tag (one byte), the length of the body (two bytes), the body. Numbers of two bytes are high byte
 * first.
 *
 *   tag                 length   body, with the bytes that each number takes
 *   1  word write       10       row 2, column 2, data 2, masking 1, mask 2, strobes 1
 *   2  block write      10       row 2, column 2, column mask 2, masking 1, mask 2, strobes 1
 *   3  load colour       3       data 2, strobes 1
 *   4  load mask         3       data 2, strobes 1
 *   5  reset refresh     0
 *   6  full transfer     4       row 2, half 1, tap 1
 *   7  split transfer    4       row 2, half 1, tap 1
 *   9  stop points       1       partition length 1
 *
 * row: below the rows fitted. column: 0 to 511. strobes: the bytes of the word that are written, one of LINKSHOAR_STROBES_. masking: one of
 * LINKSHOAR_MASKING_. mask: the bits that a masked write may change, unless the mask register is persistent and so in force instead; 0 for
 * a plain write. half: of the row, 0 columns 0 to 255, 1 columns 256 to 511. tap: a place, 0 to 255; of a split transfer 0 to 127.
 * partition length: 16, 32, 64 or 128.
 *
 * After a mask load a reset refresh comes, anywhere further on in the same list: else the list is refused whole, one in pieces by its last
 * call. */
enum {
    LINKSHOAR_TAG_WORD_WRITE = 1,
    LINKSHOAR_TAG_BLOCK_WRITE = 2,
    LINKSHOAR_TAG_LOAD_COLOUR = 3,
    LINKSHOAR_TAG_LOAD_MASK = 4,
    LINKSHOAR_TAG_RESET_REFRESH = 5,
    LINKSHOAR_TAG_FULL_TRANSFER = 6,
    LINKSHOAR_TAG_SPLIT_TRANSFER = 7,
    LINKSHOAR_TAG_STOP_POINTS = 9
};

enum {
    LINKSHOAR_STROBES_LOW = 1, /* bits 0 to 7 */
    LINKSHOAR_STROBES_HIGH = 2,
    LINKSHOAR_STROBES_BOTH = 3
};

enum {
    LINKSHOAR_MASKING_PLAIN = 0,
    LINKSHOAR_MASKING_MASKED = 1
};

/* What the functions below that write a field have in common. */
static inline void linkshoar_put_pair(uint8_t *at, uint16_t number)
{
    at[0] = (uint8_t)(number >> 8);
    at[1] = (uint8_t)number;
}

static inline size_t linkshoar_put_head(uint8_t *at, uint8_t tag, uint8_t length)
{
    at[0] = tag;
    linkshoar_put_pair(at + 1, length);
    return 3u + length;
}

static inline size_t linkshoar_put_write(uint8_t *at, uint8_t tag, uint16_t row, uint16_t column, uint16_t data, uint8_t masking,
                                         uint16_t mask, uint8_t strobes)
{
    linkshoar_put_pair(at + 3, row);
    linkshoar_put_pair(at + 5, column);
    linkshoar_put_pair(at + 7, data);
    at[9] = masking;
    linkshoar_put_pair(at + 10, mask);
    at[12] = strobes;
    return linkshoar_put_head(at, tag, 10);
}

static inline size_t linkshoar_put_load(uint8_t *at, uint8_t tag, uint16_t data, uint8_t strobes)
{
    linkshoar_put_pair(at + 3, data);
    at[5] = strobes;
    return linkshoar_put_head(at, tag, 3);
}

static inline size_t linkshoar_put_transfer(uint8_t *at, uint8_t tag, uint16_t row, uint8_t half, uint8_t tap)
{
    linkshoar_put_pair(at + 3, row);
    at[5] = half;
    at[6] = tap;
    return linkshoar_put_head(at, tag, 4);
}

/* Each of the eight writes one field at `at` and answers how many bytes that is. It writes what it is given: the run of the list judges. An
 * argument is as wide as its place in the field, and C cuts a wider number. */

/* 13 bytes: the bits of one word that strobes and mask allow take the data's. */
static inline size_t linkshoar_put_word_write(uint8_t *at, uint16_t row, uint16_t column, uint16_t data, uint8_t masking, uint16_t mask,
                                              uint8_t strobes)
{
    return linkshoar_put_write(at, LINKSHOAR_TAG_WORD_WRITE, row, column, data, masking, mask, strobes);
}

/* 13 bytes: the same for the four words of the block that has the column, with the colour register as data: bit b of the block's word j,
 * 0 to 3, is written where bit 4 * (b / 4) + j of the column mask is set too. */
static inline size_t linkshoar_put_block_write(uint8_t *at, uint16_t row, uint16_t column, uint16_t column_mask, uint8_t masking,
                                               uint16_t mask, uint8_t strobes)
{
    return linkshoar_put_write(at, LINKSHOAR_TAG_BLOCK_WRITE, row, column, column_mask, masking, mask, strobes);
}

/* 6 bytes: the strobed bytes of the colour register. */
static inline size_t linkshoar_put_load_colour(uint8_t *at, uint16_t data, uint8_t strobes)
{
    return linkshoar_put_load(at, LINKSHOAR_TAG_LOAD_COLOUR, data, strobes);
}

/* 6 bytes: the strobed bytes of the mask register, which is persistent from then on, until the reset refresh that this list owes. */
static inline size_t linkshoar_put_load_mask(uint8_t *at, uint16_t data, uint8_t strobes)
{
    return linkshoar_put_load(at, LINKSHOAR_TAG_LOAD_MASK, data, strobes);
}

/* 3 bytes: the mask register stops being persistent, and a partition has 128 places again: a host that uses stop points sets them anew. */
static inline size_t linkshoar_put_reset_refresh(uint8_t *at)
{
    return linkshoar_put_head(at, LINKSHOAR_TAG_RESET_REFRESH, 0);
}

/* 7 bytes: the serial register takes half a row, and the pointer goes to the tap. */
static inline size_t linkshoar_put_full_transfer(uint8_t *at, uint16_t row, uint8_t half, uint8_t tap)
{
    return linkshoar_put_transfer(at, LINKSHOAR_TAG_FULL_TRANSFER, row, half, tap);
}

/* 7 bytes: the half of the serial register that does not hold the pointer takes the same places of half a row, and the tap, counted from
 * that half's start, waits: the pointer goes there from the end of its partition. */
static inline size_t linkshoar_put_split_transfer(uint8_t *at, uint16_t row, uint8_t half, uint8_t tap)
{
    return linkshoar_put_transfer(at, LINKSHOAR_TAG_SPLIT_TRANSFER, row, half, tap);
}

/* 4 bytes: from now on a partition of the serial register has so many places, and its last is a stop point: from there the pointer goes to
 * a waiting tap, and on to the next place where none waits. A tap that waits already stays. So a host that draws in tiles shows a row of one
 * tile from one half while a split transfer brings the next tile's to the other; a pointer that is to leave at every stop point needs one
 * before each. Columns are named as ever: the part's exchange of column bits 7 and 8 in this mode is not made. */
static inline size_t linkshoar_put_stop_points(uint8_t *at, uint8_t length)
{
    at[3] = length;
    return linkshoar_put_head(at, LINKSHOAR_TAG_STOP_POINTS, 1);
}

/* ---- Pages
 *
 * A page is rectangles, one after the other, each a field as in a list: tag 8, length 12, and six numbers of two bytes: first row, end row,
 * first column, end column (ends not included), mask, colour. They are painted in this order, so the last is on top, and each whole before
 * the next is begun: name a result's mark before the result, and no point of the running shows the new result without its mark. Where an old
 * result stands there and its mark changes too, name three: the old result's clearing, through mask 00FF, then the mark, then the result;
 * else the old result would stand under the new mark for a while. */
enum { LINKSHOAR_TAG_RECTANGLE = 8 };

/* 15 bytes: a rectangle. It writes what it is given: linkshoar_page judges. An argument is as wide as its place, and C cuts a wider one. */
static inline size_t linkshoar_put_rectangle(uint8_t *at, uint16_t first_row, uint16_t end_row, uint16_t first_column, uint16_t end_column,
                                             uint16_t mask, uint16_t colour)
{
    linkshoar_put_pair(at + 3, first_row);
    linkshoar_put_pair(at + 5, end_row);
    linkshoar_put_pair(at + 7, first_column);
    linkshoar_put_pair(at + 9, end_column);
    linkshoar_put_pair(at + 11, mask);
    linkshoar_put_pair(at + 13, colour);
    return linkshoar_put_head(at, LINKSHOAR_TAG_RECTANGLE, 12);
}

/* ---- Marks of rows
 *
 * Which rows changed, for a link that would else send the whole screen. Row r's mark is bit r mod 8 of byte r / 8, in LINKSHOAR_MARKS_BYTES
 * lent bytes; it has nothing to do with the status mark in a word's high byte. Since marks were cleared a row is marked exactly when a word
 * or block write that names it has been run with these marks, by linkshoar_list_run_marked or linkshoar_pencil_run_marked, even if that
 * changed no bit. No other cycle marks a row, not even a transfer, which names one; a refused list marks none. So a row that is not marked
 * holds the words that it held at the clearing, as long as all drawing on that memory is done so, with these same marks: a host that writes
 * words in place draws too, and a list in pieces marks no row. A list without a word or block write may be run by linkshoar_list_run or
 * linkshoar_pencil_run as well, or taken in pieces; clocks and panel runs draw nothing.
 *
 * The link copies the memory once and clears the marks, which clears bytes of any content; then, after any number of lists, this brings its
 * copy up to date, where nothing is drawn between the first line and the last (lists that only transfer rows may run there):
 *
 *   linkshoar_marked m = linkshoar_marks_next(marks, LINKSHOAR_MARKS_BYTES, 0);
 *   for (; m.found; m = linkshoar_marks_next(marks, LINKSHOAR_MARKS_BYTES, m.row + 1))
 *       send(m.row);
 *   linkshoar_marks_clear(marks, LINKSHOAR_MARKS_BYTES);
 *
 * The loop visits every marked row once, from low to high, and ends by itself: with number 0 where no row is left, or after row 511 with 5,
 * since a start row of 512 is refused and nothing is found. 18 is the only error: the marks are not 64 bytes, and nothing was sent. (Where
 * marks is a pointer, sizeof marks is not 64.) Marks that were cleared and then set by marked runs on one memory name rows of that memory
 * alone; bytes that were not cleared may name rows that are not fitted. Marks are of the memory: where the palette changes, a link that sends
 * colours sends the whole screen. */

/* ---- Calls */

/* The states at power-on: zeros, a partition of 128 places, and a pixel mask of 255. */
linkshoar_vram linkshoar_vram_fresh(void);
linkshoar_palette linkshoar_palette_fresh(void);

/* Plans a fill: writes the shortest list that gives the rectangle's bits of mask the colour's, for linkshoar_list_run
 * or, where rows are marked, linkshoar_list_run_marked.
 * rows: the rows fitted, 1 to 512, as many as the memory has on which the list is to run. The rectangle: rows first_row up to end_row,
 * columns first_column up to end_column, ends not included. mask: the bits to be painted; colour: the word that they take. persistent:
 * the state's, which must be 0. list, length: the room for the list; LINKSHOAR_LIST_BYTES is always enough. Refused with 2, 12, 13, 15. */
linkshoar_filled linkshoar_fill(uint32_t rows, uint32_t first_row, uint32_t end_row, uint32_t first_column, uint32_t end_column,
                                uint16_t mask, uint16_t colour, uint32_t persistent, uint8_t *list, size_t length);

/* Plans a page: writes the lists of its rectangles' fills, joined, for linkshoar_list_run or linkshoar_list_run_marked: the same bytes as
 * calling linkshoar_fill for each with the buffer moved along, and the sums of their bytes and cycles. Each rectangle's own part is
 * shortest; the whole is not made shorter, so a colour may be loaded twice. No rectangle gives an empty list. rows, persistent: as for
 * linkshoar_fill. rectangles, length: see "Pages". list, room: the room for the joined list, measured before a byte is written;
 * LINKSHOAR_LIST_BYTES for each rectangle is always enough. The rectangles and the list do not overlap. Refused with 2; then 4 and 12 by the
 * first bad field, with its place; then 13; then 15. */
linkshoar_paged linkshoar_page(uint32_t rows, uint32_t persistent, const uint8_t *rectangles, size_t length, uint8_t *list, size_t room);

/* Checks a list whole, then runs it in order; length: the list's bytes. A list with a mask load or a reset refresh, where it is not refused,
 * leaves the mask not persistent; any other leaves persistence as it was. So from a fresh state on no fill or page that is given the
 * state's own persistent is refused with 13, and the same holds with the three runs below, and with lists in pieces that are accepted, once
 * they are over, with no other call between their pieces. Refused with 1 to 10, 19, 20. */
linkshoar_ran linkshoar_list_run(linkshoar_vram state, uint16_t *memory, size_t words, uint16_t *serial, size_t serial_words,
                                 const uint8_t *list, size_t length);

/* The same, and each row that a word or block write of the list names is marked, if the list is not refused. marks, marks_bytes:
 * LINKSHOAR_MARKS_BYTES bytes, cleared once before (see "Marks of rows"); marks that are set stay set. Refused with 1 to 3; then with 18, at
 * place 0; then as linkshoar_list_run is. */
linkshoar_ran linkshoar_list_run_marked(linkshoar_vram state, uint16_t *memory, size_t words, uint16_t *serial, size_t serial_words,
                                        uint8_t *marks, size_t marks_bytes, const uint8_t *list, size_t length);

/* The same two on the plain engine, whose writes can be followed with a pencil: every word write is done bit by bit, every block write as
 * four word writes of the colour register, one for each column of the block, with the field's strobes. The word write of column j goes
 * through the bits that the column has left: those of the mask in force where the column mask lets them through (see
 * linkshoar_put_block_write). It takes them as its mask as given: four word writes of a list would take the mask register in their place
 * while that is persistent.
 * On every input linkshoar_pencil_run answers and leaves what linkshoar_list_run does, and linkshoar_pencil_run_marked what
 * linkshoar_list_run_marked does; each may stand in for its fellow from list to list. To check a list, run it on one engine and, on copies of
 * state, memory, serial register and marks, on the other, and compare. What refuses a list is one piece of code for both. Refused as those
 * are. They are for the bench and not for the panel: a word write takes three to four times as long, a block write ten to fifteen
 * times. */
linkshoar_ran linkshoar_pencil_run(linkshoar_vram state, uint16_t *memory, size_t words, uint16_t *serial, size_t serial_words,
                                   const uint8_t *list, size_t length);
linkshoar_ran linkshoar_pencil_run_marked(linkshoar_vram state, uint16_t *memory, size_t words, uint16_t *serial, size_t serial_words,
                                          uint8_t *marks, size_t marks_bytes, const uint8_t *list, size_t length);

/* Clears all marks; answers the number. Refused with 18. */
uint32_t linkshoar_marks_clear(uint8_t *marks, size_t marks_bytes);

/* The first marked row from start on, start itself included; found is 0 where there is none. Refused with 18; then 5 where start is over
 * 511. C cuts a start of more than 32 bits. */
linkshoar_marked linkshoar_marks_next(const uint8_t *marks, size_t marks_bytes, uint32_t start);

/* Reads a word; a byte not strobed is 0. strobes: one of LINKSHOAR_STROBES_. Refused with 2, 5, 6, 7. */
linkshoar_word linkshoar_word_read(const uint16_t *memory, size_t words, uint32_t row, uint32_t column, uint32_t strobes);

/* One serial clock: answers the word at the pointer, which then moves: to the next place, 255 going to 0, but from the last place of a
 * partition (127 and 255 where it has 128 places) to the waiting tap if there is one. Refused with 1, 3, 10. */
linkshoar_clocked linkshoar_serial_clock(linkshoar_vram state, const uint16_t *serial, size_t serial_words);

/* A run of 0 to 512 clocks to the panel: red, green, blue of each word at the start of out, zeros where blank is not 0. linkshoar_panel_run
 * writes eight bits for each, 0 to 255: the table's six bits v become 4 * v + v / 16, so that 0 stays 0, 63 becomes 255 and v is the top six
 * bits. linkshoar_panel_run_six, for a panel of six bits, writes v itself, 0 to 63; in all else the two are the same. A word's pixel is its
 * high byte, the mark; but where that is 0 its low byte, the result, and where that is 255 its low byte with all eight bits inverted, the
 * result in reverse. The pixel ANDed with the pixel mask is the entry shown: FFFF shows entry 0. out_bytes: the room in out, at least
 * 3 * clocks. Refused with 1, 3, 10, 14, 15.
 *
 * Reverse video, for a recheck: a fill of the result's cell through mask FF00 with the colour LINKSHOAR_HIGH_REVERSE * 256 leaves the low
 * bytes, the result, as they are; the same fill with LINKSHOAR_HIGH_RESULT * 256 ends it. Meanwhile a result of e shows as entry 255 - e, ANDed
 * with the pixel mask. The caller gives those entries the colours that the results are to have in reverse; a mark of 255 - e names the same
 * entry. 255 stands where a mark would stand: a word in reverse has no mark, and 0 afterwards brings none back. So only words that carry no
 * mark are put in reverse.
 *
 * The serial register holds half a row, so a row is shown in two steps: a full transfer of half 0 with tap 0, run as a list, and a run of
 * 256 clocks; then the same with half 1. */
linkshoar_shown linkshoar_panel_run(linkshoar_vram state, const uint16_t *serial, size_t serial_words, linkshoar_palette palette,
                                    const uint8_t *table, size_t table_bytes, uint32_t clocks, uint32_t blank, uint8_t *out,
                                    size_t out_bytes);
linkshoar_shown linkshoar_panel_run_six(linkshoar_vram state, const uint16_t *serial, size_t serial_words, linkshoar_palette palette,
                                        const uint8_t *table, size_t table_bytes, uint32_t clocks, uint32_t blank, uint8_t *out,
                                        size_t out_bytes);

/* Palette accesses; select: one of LINKSHOAR_SELECT_. An entry is set by its address to select 0, then red, green and blue to select 1; the
 * next three bytes set the next entry. An entry is read by its address to select 3, then three reads of select 1; the next three reads answer
 * the next entry. Writing 0 to select 3 and reading select 1 768 times saves the palette, the low six bits of each byte of the table; writing
 * 0 to select 0 and those 768 bytes to select 1 brings it back. A read answers what stood there before it; a write answers byte 0. Refused
 * with 1, 3, 11. */
linkshoar_accessed linkshoar_palette_write(linkshoar_palette state, uint8_t *table, size_t table_bytes, uint32_t select, uint8_t value);
linkshoar_accessed linkshoar_palette_read(linkshoar_palette state, const uint8_t *table, size_t table_bytes, uint32_t select);

/* The same with the state lent: the new state is left there. The write answers the number. */
uint32_t linkshoar_palette_write_lent(linkshoar_palette *state, uint8_t *table, size_t table_bytes, uint32_t select, uint8_t value);
linkshoar_byte linkshoar_palette_read_lent(linkshoar_palette *state, const uint8_t *table, size_t table_bytes, uint32_t select);

/* ---- Lists in pieces, for a slow port
 *
 * A list is taken a piece at a time, cut anywhere, also within a field, and each field runs when its last byte has come. Between two calls
 * the caller keeps the state and the pieces: both come back in every answer, and both go into the next call. Nothing else is kept: the
 * bytes of a piece may be overwritten once the call is back.
 *
 *   linkshoar_pieces pieces = linkshoar_pieces_fresh();
 *   linkshoar_taken t;
 *   size_t n;
 *   while (more_of_the_list(port, bytes, &n)) {
 *       t = linkshoar_pieces_take(state, pieces, memory, words, serial, LINKSHOAR_SERIAL_WORDS, bytes, n);
 *       state = t.state, pieces = t.pieces;
 *       if (t.number && t.number <= LINKSHOAR_REGISTER_LENGTH)
 *           stop(linkshoar_strerror(t.number));
 *   }
 *   t = linkshoar_pieces_end(state, pieces, memory, words, serial, LINKSHOAR_SERIAL_WORDS);
 *   state = t.state, pieces = t.pieces;
 *   if (t.number)
 *       complain(linkshoar_strerror(t.number), t.place);
 *
 * A piece's number from 4 on need not be looked at: the last call says it again. But 1 to 3 say that the program's state, pieces or lengths
 * are wrong: no byte of that piece was taken, and at the last call the list is not over. After any other answer of the last call the same
 * loop goes on with the next list. Where a list ends, the sender has to say: its bytes do not, so one that stops between two fields looks
 * whole. Where a buffer has the end of one list and the start of the next, it is given in two pieces, with the last call between. To give a
 * list up, as when the line drops, end it, or begin anew with linkshoar_pieces_fresh: what is drawn stays drawn.
 *
 * With no other call between, each lent what the one before left, the last call answers for a list of at most 4294967295 bytes, however it
 * was cut, the number and the place that linkshoar_list_run would have answered for the whole list on the state and contents before the
 * first piece; and where that is 0 it leaves the same state, memory and serial register. What differs where it is not 0: the fields before
 * the refused one stay drawn, with 20 all of them, and the state is the one that they left. So the mask may then be persistent, and a fill
 * would be refused with 13: once the refused list is over, a list of one reset refresh puts that right, and brings partitions of 128 places
 * back. No row is marked by a list in pieces: a link that sends marked rows sends the whole screen after each piece that may have drawn.
 *
 * Other calls may stand between two pieces, as panel runs do while a list is slow to come: the next piece takes the state that they answer. A
 * field is judged on the state as it is when the field's last byte has come, and draws on that. Whether a mask load is open goes by the
 * list's own fields: another list's reset refresh between two pieces closes none of them, and the last call still gives 20.
 *
 * In pieces a list has at most 4294967295 bytes, UINT32_MAX: one more is refused with 4, at the offset of its field.
 *
 * A fresh linkshoar_pieces, and what calls make of it, is always as follows; any other is refused with 1. The bytes of held from count on are
 * zeros. Where number is 0: count is at most 12, and more bytes may make a field of those held, so that where there are three or more their
 * tag is known, their length is the tag's, and the field's last byte is not there; start and count together are at most UINT32_MAX; open
 * and left are 0, or open is 1 and left is below start. Where number is not 0 it is one of 4 to 10 or 19, and count, open and left are 0. */

/* Before the first piece: all zeros. The pieces are so again after linkshoar_pieces_end, unless that gives 1 to 3. */
linkshoar_pieces linkshoar_pieces_fresh(void);

/* Takes a piece, of any length, also none. A field is judged when its last byte has come, as linkshoar_list_run judges it, and run; an
 * unknown tag or a length that is not its tag's is refused as soon as the header's three bytes are there. An unfinished field is no
 * refusal: its bytes are held. Once a field is refused, the rest of the piece and all later pieces draw nothing and, where 1 to 3 pass, get
 * the same number and place, until linkshoar_pieces_end. Refused with 1, for the pieces or the state, 2 or 3: no byte of the piece is taken
 * then, and it may be given again. Else with 4 to 10, 19. */
linkshoar_taken linkshoar_pieces_take(linkshoar_vram state, linkshoar_pieces pieces, uint16_t *memory, size_t words, uint16_t *serial,
                                      size_t serial_words, const uint8_t *piece, size_t length);

/* The list is over: the refusal that a field has had; else 4 where a field is unfinished, with its offset; else 20 where a mask load is
 * still open. In any of these cases, and where nothing is refused, the pieces come back fresh, and the next piece starts a new list. The
 * state is as it came; memory and serial are only measured. Refused with 1, for the pieces or the state, 2 or 3: the list is not over then,
 * and the pieces come back as they were. Else with 4 to 10, 19, 20. */
linkshoar_taken linkshoar_pieces_end(linkshoar_vram state, linkshoar_pieces pieces, const uint16_t *memory, size_t words,
                                     const uint16_t *serial, size_t serial_words);

/* ---- The Am8150's counters, for the older boards
 *
 * Each call is refused with 1 for a state that the rules exclude: a Top of Frame or counter of 2^18 or more, cycles over 3, update over 2,
 * page mode together with interleaved update, a yes-or-no byte over 1.
 *
 * A frame, not in override: a vertical sync; any horizontal syncs; then video goes from off to on; then for each line its fetches, video off,
 * a horizontal sync, video on. Word k of line l has the address top_of_frame + l * (words to a line + offset) + k, modulo LINKSHOAR_ADDRESSES.
 * Video is off before the next frame's video on, whether it is set off before or after the vertical sync: video set on where it is on
 * changes nothing, and horizontal syncs would go on adding nothing. */

/* The state at power-on: zeros, in the retrace only, nothing inhibited. */
linkshoar_controller linkshoar_controller_fresh(void);

/* The address of a frame's first word, below LINKSHOAR_ADDRESSES, from the next vertical sync on. Refused with 1, 16. */
linkshoar_controlled linkshoar_controller_set_top_of_frame(linkshoar_controller state, uint32_t address);

/* Moves Top of Frame by a number of words, LINKSHOAR_PAN_LEAST to LINKSHOAR_PAN_MOST, modulo LINKSHOAR_ADDRESSES. Refused with 1, 16. */
linkshoar_controlled linkshoar_controller_pan(linkshoar_controller state, int32_t words);

/* The words skipped from the end of a line to the next, 0 to 255. Resets the chip: counter, refresh counter and video go to 0 and nothing is
 * inhibited, so it is set first. Refused with 1, 16. */
linkshoar_controlled linkshoar_controller_set_offset(linkshoar_controller state, uint32_t offset);

/* The Mode register whole: refresh cycles 0 to 3, page mode (0 no), update mode (one of LINKSHOAR_UPDATE_). Refused with 1, 16. */
linkshoar_controlled linkshoar_controller_set_mode(linkshoar_controller state, uint32_t cycles, uint32_t page, uint32_t update);

/* Video on, or off where on is 0. A change from off to on ends what a vertical sync has inhibited. Refused with 1. */
linkshoar_controlled linkshoar_controller_video(linkshoar_controller state, uint32_t on);

/* Adds the Offset to the counter, unless inhibited or in override, and makes the refresh cycles in any case. Refused with 1. */
linkshoar_controlled linkshoar_controller_horizontal_sync(linkshoar_controller state);

/* Loads the counter from Top of Frame, and inhibits the Offset's addition until video next goes from off to on. Refused with 1. */
linkshoar_controlled linkshoar_controller_vertical_sync(linkshoar_controller state);

/* A video word: answers the counter's address, then raises the counter by one. Refused with 1, 17. */
linkshoar_fetched linkshoar_controller_fetch(linkshoar_controller state);

/* ---- The Am8159's colours
 *
 * The table is LINKSHOAR_COLOURS_WORDS lent words, of which thirteen bits are read: red in bits 0 to 3, green in 4 to 7, blue in 8 to 11,
 * blink in bit 12. The caller may write it in place, or as the chip is written: in 16 bits by linkshoar_colours_write, or in 8 bits, the
 * low part by linkshoar_colours_write_low and then the high part by linkshoar_colours_write_high, which has the address and stores both.
 * What is stored by a call has zeros above bit 12.
 *
 * Each pixel is one clock, and what it asks for comes out three clocks later, with the table as it was when the pixel went in: a write in
 * between changes no pixel that is under way. From a fresh state the first three outputs are at blank. So n pixels of a line, and three
 * blanked ones to bring the last of them out, are n + 3 clocks:
 *
 *   linkshoar_colours state = linkshoar_colours_fresh();
 *   linkshoar_inputs blanked = {0};
 *   blanked.blank = 1;
 *   for (size_t k = 0; k < n + 3; k++) {
 *       linkshoar_emitted e = linkshoar_colours_pixel(state, table, LINKSHOAR_COLOURS_WORDS, k < n ? line[k] : blanked);
 *       if (e.number)
 *           break; // refused: linkshoar_strerror says why
 *       state = e.state;
 *       if (k >= 3)
 *           show(k - 3, e.levels);
 *   }
 *
 * What a pixel asks for is the first of these that holds:
 *   just one of the syncs  green at sync, red and blue at blank
 *   both syncs, or blank   all at blank
 *   overlay                each gun at white where it is on, at black where it is off
 *   else                   the colour at the address, each gun at its step; where blink is yes and the colour's bit 12 is 1, all twelve
 *                          colour bits are inverted: step s is 15 - s
 *
 * Each call with a state is refused with 1 for one that the rules exclude: see linkshoar_colours. */

/* The state at power-on: no low part waits, and the next three outputs are at blank. */
linkshoar_colours linkshoar_colours_fresh(void);

/* Stores data, 0 to 8191, at the address, 0 to 63; a low part that waits is dropped. Refused with 1, 3, 21. */
linkshoar_coloured linkshoar_colours_write(linkshoar_colours state, uint16_t *table, size_t words, uint32_t address, uint32_t data);

/* Bits 0 to 7 of a word: they wait, in place of a low part that waited, and the table is not written yet. Refused with 1. */
linkshoar_coloured linkshoar_colours_write_low(linkshoar_colours state, uint8_t low);

/* Bits 8 to 12 of a word in bits 0 to 4, the others ignored: stores it, with the low part that waits, at the address, 0 to 63. No low part
 * waits afterwards; where the call is refused, one that waited still does. Refused with 1, 3, 21, 22. */
linkshoar_coloured linkshoar_colours_write_high(linkshoar_colours state, uint16_t *table, size_t words, uint32_t address, uint8_t high);

/* Of the word at the address, 0 to 63: linkshoar_colours_read answers its thirteen bits, linkshoar_colours_read_low bits 0 to 7,
 * linkshoar_colours_read_high bits 8 to 12 in bits 0 to 4; all bits above are 0. A low part that waits is not in the table yet: until its
 * high part comes the word is the old one. Refused with 3, 21. */
linkshoar_word linkshoar_colours_read(const uint16_t *table, size_t words, uint32_t address);
linkshoar_byte linkshoar_colours_read_low(const uint16_t *table, size_t words, uint32_t address);
linkshoar_byte linkshoar_colours_read_high(const uint16_t *table, size_t words, uint32_t address);

/* A clock: answers what the third pixel before this one asked for, and takes this one's inputs in. The address is judged whether its colour
 * is shown or not. A refused pixel is no clock, and its levels, zeros, are no output. Refused with 1, 3, 21. */
linkshoar_emitted linkshoar_colours_pixel(linkshoar_colours state, const uint16_t *table, size_t words, linkshoar_inputs inputs);

/* What a number means, in a few words. */
static inline const char *linkshoar_strerror(uint32_t number)
{
    switch (number) {
    case LINKSHOAR_DONE: return "done";
    case LINKSHOAR_STATE_EXCLUDED: return "a state, or a held field, that the rules exclude";
    case LINKSHOAR_MEMORY_LENGTH: return "memory length or rows fitted not 1 to 512 rows";
    case LINKSHOAR_REGISTER_LENGTH: return "serial register not 256 words, palette table not 768 bytes, or the Am8159's table not 64 words";
    case LINKSHOAR_FIELD_UNREADABLE: return "unknown tag, wrong length, a field cut short, or a list too long";
    case LINKSHOAR_ROW_NOT_FITTED: return "row not fitted, or a start row over 511";
    case LINKSHOAR_COLUMN_OVER: return "column over 511";
    case LINKSHOAR_STROBES_OTHER: return "strobes not 1 to 3";
    case LINKSHOAR_MASKING_OTHER: return "masking not 0 or 1, or plain with a mask";
    case LINKSHOAR_HALF_OR_TAP_OVER: return "half or tap over its range";
    case LINKSHOAR_NOT_LOADED: return "no full transfer made before";
    case LINKSHOAR_SELECT_OTHER: return "no such select";
    case LINKSHOAR_RECTANGLE_OUTSIDE: return "rectangle outside the rows fitted or 512 columns";
    case LINKSHOAR_FILL_PERSISTENT: return "fill or page while the mask is persistent";
    case LINKSHOAR_RUN_OVER: return "run over 512 clocks";
    case LINKSHOAR_BUFFER_SHORT: return "answer buffer too short";
    case LINKSHOAR_SETTING_OTHER: return "setting out of range, or page mode together with interleaved update";
    case LINKSHOAR_VIDEO_OFF_OR_OVERRIDE: return "no word is fetched with video off or in override";
    case LINKSHOAR_MARKS_LENGTH: return "marks not 64 bytes";
    case LINKSHOAR_PARTITION_OTHER: return "partition length not 16, 32, 64 or 128";
    case LINKSHOAR_MASK_LEFT_BEHIND: return "a mask load with no reset refresh after it in the list";
    case LINKSHOAR_ADDRESS_OR_DATA_OVER: return "Am8159 address over 63, or 16-bit data over 8191";
    case LINKSHOAR_NO_LOW_PART: return "high part of an Am8159 word with no low part waiting";
    default: return "unknown number";
    }
}

#ifdef __cplusplus
}
#endif

#endif
