/* papergrid: tables of texts, drawn in columns of a terminal.
 *
 *     Papergrid table = PAPERGRID_NONE;
 *     size_t length = 0;
 *     PapergridPosition at;
 *     int32_t answer = papergrid_new(&table);
 *     if (!answer) answer = papergrid_push_string(&table, "a cell");
 *     if (!answer) answer = papergrid_draw(&table, 0, &length, &at);
 *     if (answer) fprintf(stderr, "%s\n", papergrid_words(answer));
 *     papergrid_free(&table);
 *
 * A table takes its cells and its settings call by call, and is drawn. It is in no file and on no screen: `papergrid_picture` copies
 * what was drawn. Link with libpapergrid.a or libpapergrid.so.
 *
 * Each call but `papergrid_free` answers a number, which is 0 where it is done (`papergrid_words` has words for each). After any other
 * number the table is as it was, and nothing was written to what was lent, unless the call says so. Memory that is refused is an answer
 * too (PAPERGRID_MEMORY): no call ends the program. What such a call had allocated may stay with the table until it is freed.
 *
 * Rows and columns count from 0. Widths are columns of a terminal, heights are lines. Texts are UTF-8, with their length in bytes, and
 * need no 0 at their end. A character is given by its number in Unicode, as 0x2502 for a line down; C11 has U'x' for that of x.
 *
 * What the caller owes; the library tests none of it:
 * - A handle begins as PAPERGRID_NONE, and is then changed by these calls alone. It may be moved. Of two copies only one is used.
 * - No pointer is NULL, but for a text, characters, sizes, cells or bytes of length 0.
 * - What is lent to be written to overlaps nothing else that the same call is handed.
 * - One call at a time for one handle. From call to call it may go from one thread to another, and several threads may call at a time,
 *   each for a handle of its own.
 * - No call comes from a signal handler, nor from a forked child of a process with threads.
 * - `malloc`, `realloc` and `free` are of one allocator, and align as C asks.
 *
 * The library keeps no pointer to what it is handed. What it keeps is in the handle, until `papergrid_free`. */
#ifndef PAPERGRID_H
#define PAPERGRID_H

#include <stddef.h>
#include <stdint.h>
#include <string.h>

#ifdef __cplusplus
extern "C" {
#endif

/* What a call answers. */
enum {
    PAPERGRID_OK = 0,
    PAPERGRID_MEMORY = 1,        /* memory was refused */
    PAPERGRID_NO_TABLE = 2,      /* the handle is PAPERGRID_NONE */
    PAPERGRID_NOT_TEXT = 3,      /* the bytes are not UTF-8 */
    PAPERGRID_BAD_SETTING = 4,   /* no setting is spelled so */
    PAPERGRID_OUT_OF_RANGE = 5,  /* no row or no column is behind that of the border */
    PAPERGRID_OUT_OF_TABLE = 6,  /* a cell ends past the last column or the last row */
    PAPERGRID_NOT_TILED = 7,     /* spans overlap, or leave a place to no cell */
    PAPERGRID_TOO_LARGE = 8,     /* the table is wider or higher than SIZE_MAX */
    PAPERGRID_NOT_ESTIMATED = 9, /* no sizes were found since the table was changed */
    PAPERGRID_HIDDEN = 10,       /* another cell spans over the position */
    PAPERGRID_NO_ROOM = 11,      /* there is more than fits */
    PAPERGRID_BAD_VALUE = 12,    /* a value is none of those that the call knows */
    PAPERGRID_NO_CELL = 13,      /* no cell stands there */
    PAPERGRID_NO_CERTIFICATE = 14 /* no cells certify the sizes */
};

/* A table, or none. */
typedef struct Papergrid {
    void *at; /* the library's own */
} Papergrid;

#define PAPERGRID_NONE {NULL}

#define PAPERGRID_VERSION "0.18.0"

/* What a setting is for: see `papergrid_all` and the three below it. */
typedef struct PapergridEntity {
    uint32_t kind; /* 0 all cells, 1 a column, 2 a row, 3 a cell */
    size_t row;
    size_t column;
} PapergridEntity;

/* A row and a column. */
typedef struct PapergridPosition {
    size_t row;
    size_t column;
} PapergridPosition;

/* Where a cell stands: its first column of the terminal and its first line, counted from 0 at the left and the top of the table without
 * margins, and over how many of them it goes, with the lines inside of it. */
typedef struct PapergridPlace {
    size_t left;
    size_t top;
    size_t width;
    size_t height;
} PapergridPlace;

/* The characters of a table's frame and of the lines inside; 0 is none. There is a line between every two rows where one of `horizontal`,
 * `intersection`, `left_intersection` and `right_intersection` is there, and between every two columns where one of `vertical`,
 * `intersection`, `top_intersection` and `bottom_intersection` is. Intersections stand where these lines cross, and where they meet the
 * frame. */
typedef struct PapergridBorders {
    uint32_t top, top_left, top_right, top_intersection;
    uint32_t bottom, bottom_left, bottom_right, bottom_intersection;
    uint32_t horizontal, vertical, intersection;
    uint32_t left, left_intersection, right, right_intersection;
} PapergridBorders;

/* ---- a table and its cells */

/* Puts a new table into the handle: without cells, settings, lines, padding and margins, with texts at the left and at the top. A
 * table that it had is freed. After PAPERGRID_MEMORY it has none. */
int32_t papergrid_new(Papergrid *handle);

/* Frees the table, if there is one. The handle is PAPERGRID_NONE then, and may be freed again. */
void papergrid_free(Papergrid *handle);

/* Adds a cell to the last row. The first cell of all begins the first row. There are as many columns as the longest row has cells.
 * PAPERGRID_NOT_TEXT, PAPERGRID_MEMORY. */
int32_t papergrid_push_cell(Papergrid *handle, const char *text, size_t length);

/* Ends the row that was begun: the next cell begins a new one. Where none was begun it adds a row without cells. PAPERGRID_MEMORY. */
int32_t papergrid_end_row(Papergrid *handle);

/* Adds the rows that a text is cut into: each byte `row_end` ends a row, and each byte `cell_end` stands between two cells. Both are
 * ASCII, else PAPERGRID_BAD_VALUE. What stands behind the last `row_end` is a row too, unless it is empty. A row that was begun is ended
 * before. Nothing is unquoted: for CSV with quotes, cut the text yourself. PAPERGRID_NOT_TEXT, PAPERGRID_MEMORY. */
int32_t papergrid_push_rows(Papergrid *handle, const char *text, size_t length, uint8_t cell_end, uint8_t row_end);

/* ---- settings. Each is one more, and of two for the same the later one counts. A frame and an inserted line are not the same: the line
 * stays whichever comes first. */

/* Any of the 41 settings, as a JSON list of its name and its values: ["SetBorderDefault", "+"]. Margins are set so alone, say. The
 * program papergrid_table of the repository lists all with `--help-json`. PAPERGRID_BAD_SETTING, PAPERGRID_MEMORY. */
int32_t papergrid_set(Papergrid *handle, const char *json, size_t length);

/* So many blank columns left and right of each text, and so many blank lines above and below. PAPERGRID_BAD_VALUE for a kind of entity
 * that there is not, and PAPERGRID_MEMORY: so all the setters below. */
int32_t papergrid_set_padding(Papergrid *handle, PapergridEntity entity, size_t left, size_t right, size_t top, size_t bottom);

/* Texts stand at the left (0), in the middle (1) or at the right (2); PAPERGRID_BAD_VALUE for any other. */
int32_t papergrid_set_alignment(Papergrid *handle, PapergridEntity entity, uint32_t alignment);

/* Texts stand at the top (0), in the middle (1) or at the bottom (2); PAPERGRID_BAD_VALUE for any other. */
int32_t papergrid_set_vertical_alignment(Papergrid *handle, PapergridEntity entity, uint32_t alignment);

/* The frame and the lines inside: 15 characters, in the order of PapergridBorders. 0 is none. PAPERGRID_BAD_VALUE for another count, or
 * for a number that is no character, here and in the next three. */
int32_t papergrid_set_borders(Papergrid *handle, const uint32_t *characters, size_t count);

/* The border of one cell: 8 characters, for the top, the bottom, the left, the right, and the corners at the top left, the bottom left,
 * the top right and the bottom right. PAPERGRID_OUT_OF_RANGE where the row or the column is SIZE_MAX. */
int32_t papergrid_set_border(Papergrid *handle, size_t row, size_t column, const uint32_t *characters, size_t count);

/* A line above a row, or below the last one where the row is their number: 4 characters, for the line, its crossings, its left end and its
 * right end. Where one is 0 the frame's character for that place stands, or else a blank. For a row past these nothing is drawn. */
int32_t papergrid_insert_horizontal_line(Papergrid *handle, size_t row, const uint32_t *characters, size_t count);

/* The same left of a column, or right of the last one: for the line, its crossings, its upper end and its lower end. */
int32_t papergrid_insert_vertical_line(Papergrid *handle, size_t column, const uint32_t *characters, size_t count);

/* The cell goes over so many columns, and hides the cells there. */
int32_t papergrid_set_column_span(Papergrid *handle, size_t row, size_t column, size_t columns);

/* The cell goes over so many rows, and hides the cells there. */
int32_t papergrid_set_row_span(Papergrid *handle, size_t row, size_t column, size_t rows);

/* ---- sizes and places */

/* Finds the sizes of the table, and keeps them until a cell or a setting is told. With `least` 0 they are chosen by shares: a cell over
 * several columns spreads what it lacks evenly. Else no table is smaller, whatever spans cross. Writes the whole width in columns of a
 * terminal and the whole height in lines, with all lines and without margins. `papergrid_draw` finds sizes for itself, and keeps none.
 * PAPERGRID_OUT_OF_TABLE, PAPERGRID_TOO_LARGE, PAPERGRID_MEMORY. */
int32_t papergrid_estimate(Papergrid *handle, uint32_t least, size_t *width, size_t *height);

/* Writes where the cell at a position stands, by the sizes that were found. PAPERGRID_NOT_ESTIMATED, PAPERGRID_HIDDEN,
 * PAPERGRID_OUT_OF_TABLE, PAPERGRID_MEMORY. */
int32_t papergrid_place(Papergrid *handle, size_t row, size_t column, PapergridPlace *place);

/* Writes which cell stands over a column of the terminal in a line, by the sizes that were found; PAPERGRID_NO_CELL where none does.
 * PAPERGRID_NOT_ESTIMATED, PAPERGRID_MEMORY. */
int32_t papergrid_cell_at(Papergrid *handle, size_t column, size_t line, PapergridPosition *cell);

/* Writes how many columns there are, and then their widths to the front of `widths`, by the sizes that were found; where they do not fit,
 * PAPERGRID_NO_ROOM, with the count alone written. So NULL and a room of 0 ask for the count. A width is with the padding and without the
 * lines between columns. PAPERGRID_NOT_ESTIMATED. */
int32_t papergrid_widths(Papergrid *handle, size_t *widths, size_t room, size_t *count);

/* The same of the rows and their heights. */
int32_t papergrid_heights(Papergrid *handle, size_t *heights, size_t room, size_t *count);

/* Writes how many cells certify that the widths that were found are least, and then their positions to the front of `cells`; where they do
 * not fit, PAPERGRID_NO_ROOM, with the count alone written. No two of them share a column. A cell needs its widest line and its padding,
 * less the lines between the columns that it spans. What they need adds up to the widths: so no widths with room for these cells are less.
 * PAPERGRID_NO_CERTIFICATE where the widths are by shares and two cells over several columns overlap in part; PAPERGRID_NOT_ESTIMATED. */
int32_t papergrid_width_certificate(Papergrid *handle, PapergridPosition *cells, size_t room, size_t *count);

/* The same of the heights: no two of the cells share a row, and a cell needs its lines and its padding. */
int32_t papergrid_height_certificate(Papergrid *handle, PapergridPosition *cells, size_t room, size_t *count);

/* ---- the picture */

/* Draws the table: its picture is kept, and its length in bytes is written. It is UTF-8, with a line feed after each line, and empty
 * where there are no rows or no columns. `least` is as for `papergrid_estimate`. After PAPERGRID_OUT_OF_TABLE and PAPERGRID_NOT_TILED
 * `at` is the cell of which they speak; after any other answer it is as it was. PAPERGRID_TOO_LARGE, PAPERGRID_MEMORY. After an error the
 * picture of before is kept. */
int32_t papergrid_draw(Papergrid *handle, uint32_t least, size_t *length, PapergridPosition *at);

/* Copies the picture that was drawn last to the front of the bytes, with no 0 behind it. PAPERGRID_NO_ROOM where it is longer. */
int32_t papergrid_picture(Papergrid *handle, char *bytes, size_t length);

/* ---- what needs no library */

/* All cells. */
static inline PapergridEntity papergrid_all(void) {
    PapergridEntity all = {0, 0, 0};
    return all;
}

/* The cells of a column. */
static inline PapergridEntity papergrid_column(size_t column) {
    PapergridEntity cells = {1, 0, column};
    return cells;
}

/* The cells of a row. */
static inline PapergridEntity papergrid_row(size_t row) {
    PapergridEntity cells = {2, row, 0};
    return cells;
}

/* One cell. */
static inline PapergridEntity papergrid_cell(size_t row, size_t column) {
    PapergridEntity cell = {3, row, column};
    return cell;
}

/* `papergrid_push_cell` for a text that ends with a 0. */
static inline int32_t papergrid_push_string(Papergrid *handle, const char *text) {
    return papergrid_push_cell(handle, text, strlen(text));
}

/* `papergrid_set` for a text that ends with a 0. */
static inline int32_t papergrid_set_string(Papergrid *handle, const char *json) {
    return papergrid_set(handle, json, strlen(json));
}

/* `papergrid_set_borders` by names. */
static inline int32_t papergrid_set_frame(Papergrid *handle, const PapergridBorders *borders) {
    uint32_t characters[15];
    memcpy(characters, borders, sizeof characters);
    return papergrid_set_borders(handle, characters, 15);
}

/* An answer in words. */
static inline const char *papergrid_words(int32_t answer) {
    switch (answer) {
    case PAPERGRID_OK: return "done";
    case PAPERGRID_MEMORY: return "out of memory";
    case PAPERGRID_NO_TABLE: return "there is no table";
    case PAPERGRID_NOT_TEXT: return "the text is not UTF-8";
    case PAPERGRID_BAD_SETTING: return "no setting is spelled so";
    case PAPERGRID_OUT_OF_RANGE: return "the row or the column of the border is too great";
    case PAPERGRID_OUT_OF_TABLE: return "the cell is out of the table";
    case PAPERGRID_NOT_TILED: return "spans overlap, or leave a place to no cell";
    case PAPERGRID_TOO_LARGE: return "the table is too large";
    case PAPERGRID_NOT_ESTIMATED: return "the table has not been estimated";
    case PAPERGRID_HIDDEN: return "the cell is hidden by the span of another one";
    case PAPERGRID_NO_ROOM: return "there is more than fits";
    case PAPERGRID_BAD_VALUE: return "the value is none of those that are known";
    case PAPERGRID_NO_CELL: return "no cell stands there";
    case PAPERGRID_NO_CERTIFICATE: return "no cells certify the sizes";
    default: return "no answer of papergrid";
    }
}

#ifdef __cplusplus
}
#endif

#endif
