/* Tries each call of papergrid.h, each number that they answer, and each of their requests for memory refused in turn. Its last line
 * says how much it tried. It is linked with --wrap=malloc,--wrap=realloc,--wrap=free, so that memory is refused and counted here. */
#include "papergrid.h"
#include <stdio.h>
#include <stdlib.h>

void *__real_malloc(size_t size);
void *__real_realloc(void *at, size_t size);
void __real_free(void *at);

static long refuse_at = -1; /* the request that is refused, counted from 0 */
static long asked, live, answers, refused;

static int is_refused(void) {
    int is = asked == refuse_at;
    asked++;
    return is;
}

void *__wrap_malloc(size_t size) {
    if (is_refused()) return NULL;
    void *at = __real_malloc(size);
    if (at) live++;
    return at;
}

void *__wrap_realloc(void *at, size_t size) {
    return is_refused() ? NULL : __real_realloc(at, size);
}

void __wrap_free(void *at) {
    if (at) live--;
    __real_free(at);
}

/* No call asks for memory so often. */
enum { MOST = 1000 };

#define WANT(holds)                                                  \
    do {                                                             \
        answers++;                                                   \
        if (!(holds)) {                                              \
            fprintf(stderr, "calls.c:%d: %s\n", __LINE__, #holds);   \
            exit(1);                                                 \
        }                                                            \
    } while (0)

/* The call, with its first request refused, then its second one, and so on until none is left to refuse. A call that is refused
 * changes nothing, so it may come again. */
#define EACH(call)                                                       \
    do {                                                                 \
        int32_t answer = PAPERGRID_MEMORY;                               \
        for (long k = 0; k < MOST; k++) {                                \
            asked = 0, refuse_at = k;                                    \
            answer = (call);                                             \
            if (answer != PAPERGRID_MEMORY) break;                       \
            refused++;                                                   \
        }                                                                \
        refuse_at = -1;                                                  \
        WANT(answer == PAPERGRID_OK);                                    \
    } while (0)

/* Each character another one, so that a picture tells them apart. */
static const uint32_t line[4] = {'-', 'x', '{', '}'};
static const uint32_t upright[4] = {'|', '+', '^', 'v'};
static const uint32_t corners[8] = {'=', '_', '(', ')', '1', '2', '3', '4'};
static const PapergridBorders frame = {'^', '1', '2', 'T', '_', '3', '4', 'B', '~', '|', '+', '(', '<', ')', '>'};

static void draws(Papergrid *table, uint32_t least, const char *picture) {
    char bytes[512];
    size_t length = 0;
    PapergridPosition at = {7, 8};
    EACH(papergrid_draw(table, least, &length, &at));
    WANT(length == strlen(picture) && at.row == 7 && at.column == 8);
    memset(bytes, '~', sizeof bytes);
    EACH(papergrid_picture(table, bytes, sizeof bytes));
    WANT(memcmp(bytes, picture, length) == 0 && bytes[length] == '~');
    WANT(length == 0 || papergrid_picture(table, bytes, length - 1) == PAPERGRID_NO_ROOM);
}

/* A table of two rows and two columns: a, b, and below them c, d. */
static void begin(Papergrid *table) {
    EACH(papergrid_new(table));
    EACH(papergrid_push_cell(table, "a", 1));
    EACH(papergrid_push_string(table, "b"));
    EACH(papergrid_end_row(table));
    EACH(papergrid_push_rows(table, "c,d\n", 4, ',', '\n'));
}

static void end(Papergrid *table) {
    papergrid_free(table);
    WANT(table->at == NULL && live == 0);
}

static void plain(void) {
    Papergrid table = PAPERGRID_NONE;
    begin(&table);
    draws(&table, 0, "ab\ncd\n");
    EACH(papergrid_set_frame(&table, &frame));
    draws(&table, 0, "1^T^2\n(a|b)\n<~+~>\n(c|d)\n3_B_4\n");
    EACH(papergrid_insert_horizontal_line(&table, 1, line, 4));
    draws(&table, 1, "1^T^2\n(a|b)\n{-x-}\n(c|d)\n3_B_4\n");
    EACH(papergrid_set_padding(&table, papergrid_column(1), 1, 2, 0, 0));
    draws(&table, 0, "1^T^^^^2\n(a| b  )\n{-x----}\n(c| d  )\n3_B____4\n");
    end(&table);
}

/* A row that is ended by nothing more than the rows of before has no cells, and no height. */
static void ended(void) {
    Papergrid table = PAPERGRID_NONE;
    begin(&table);
    EACH(papergrid_end_row(&table));
    draws(&table, 0, "ab\ncd\n");
    EACH(papergrid_push_string(&table, "e"));
    EACH(papergrid_push_rows(&table, "f", 1, ',', '\n'));
    draws(&table, 0, "ab\ncd\ne \nf \n");
    end(&table);
}

/* An empty row has one cell, and the last one needs no end. A cell behind them begins a row. */
static void cut(void) {
    Papergrid table = PAPERGRID_NONE;
    EACH(papergrid_new(&table));
    EACH(papergrid_push_string(&table, "x"));
    EACH(papergrid_push_rows(&table, "a;b\n\nc", 6, ';', '\n'));
    draws(&table, 0, "x \nab\n  \nc \n");
    EACH(papergrid_push_string(&table, "y"));
    EACH(papergrid_push_string(&table, "\xc3\xa9"));
    draws(&table, 0, "x \nab\n  \nc \ny\xc3\xa9\n");
    EACH(papergrid_push_rows(&table, "\xe2\x80\xa6\x1f!\x1e\x1fz\x1e", 9, '\x1f', '\x1e'));
    draws(&table, 0, "x \nab\n  \nc \ny\xc3\xa9\n\xe2\x80\xa6!\n z\n");
    end(&table);
}

/* A row without cells has no height. */
static void without_cells(void) {
    Papergrid table = PAPERGRID_NONE;
    PapergridPlace place = {7, 7, 7, 7};
    size_t width = 7, height = 7, heights[3] = {7, 7, 7}, count = 7;
    EACH(papergrid_new(&table));
    EACH(papergrid_push_string(&table, "a"));
    EACH(papergrid_end_row(&table));
    EACH(papergrid_end_row(&table));
    EACH(papergrid_push_string(&table, "b"));
    EACH(papergrid_estimate(&table, 0, &width, &height));
    WANT(width == 1 && height == 2);
    EACH(papergrid_place(&table, 2, 0, &place));
    WANT(place.left == 0 && place.top == 1);
    EACH(papergrid_heights(&table, heights, 3, &count));
    WANT(count == 3 && heights[0] == 1 && heights[1] == 0 && heights[2] == 1);
    end(&table);
}

/* Settings by values and by JSON. */
static void settings(void) {
    Papergrid table = PAPERGRID_NONE;
    begin(&table);
    EACH(papergrid_push_rows(&table, "long;e\n", 7, ';', '\n'));
    draws(&table, 0, "a   b\nc   d\nlonge\n");
    EACH(papergrid_set_alignment(&table, papergrid_cell(0, 0), 2));
    EACH(papergrid_set_alignment(&table, papergrid_row(1), 1));
    draws(&table, 0, "   ab\n c  d\nlonge\n");
    EACH(papergrid_insert_vertical_line(&table, 1, upright, 4)); /* its ends ask for a line at the top and at the bottom */
    EACH(papergrid_set_string(&table, "[\"SetBordersMissing\", \"?\"]"));
    EACH(papergrid_set_padding(&table, papergrid_cell(0, 1), 0, 0, 1, 0));
    EACH(papergrid_set_vertical_alignment(&table, papergrid_all(), 2));
    draws(&table, 0, "????^?\n    | \n   a|b\n c  |d\nlong|e\n????v?\n");
    EACH(papergrid_set_string(&table, "[\"RemoveVerticalLine\", 1, 2]"));
    EACH(papergrid_set_border(&table, 2, 0, corners, 8));
    draws(&table, 0, "?    ? \n?   a?b\n? c  ?d\n1====3?\n(long)e\n2____4?\n");
    end(&table);
}

/* Spans, and where cells stand. */
static void places(void) {
    Papergrid table = PAPERGRID_NONE;
    PapergridPlace place = {7, 7, 7, 7};
    PapergridPosition cell = {7, 7};
    size_t width = 7, height = 7;
    begin(&table);
    EACH(papergrid_push_rows(&table, "together,\n", 10, ',', '\n'));
    EACH(papergrid_set_column_span(&table, 2, 0, 2));
    EACH(papergrid_set_row_span(&table, 0, 1, 2));
    draws(&table, 0, "a   b   \nc       \ntogether\n");
    WANT(papergrid_place(&table, 0, 0, &place) == PAPERGRID_NOT_ESTIMATED);
    WANT(papergrid_cell_at(&table, 0, 0, &cell) == PAPERGRID_NOT_ESTIMATED);
    EACH(papergrid_estimate(&table, 1, &width, &height));
    WANT(width == 8 && height == 3);
    WANT(papergrid_place(&table, 2, 1, &place) == PAPERGRID_HIDDEN);
    WANT(papergrid_place(&table, 3, 0, &place) == PAPERGRID_OUT_OF_TABLE);
    WANT(papergrid_cell_at(&table, 8, 0, &cell) == PAPERGRID_NO_CELL);
    WANT(place.left == 7 && place.height == 7 && cell.row == 7 && cell.column == 7);
    EACH(papergrid_place(&table, 0, 1, &place));
    WANT(place.left == 4 && place.top == 0 && place.width == 4 && place.height == 2);
    EACH(papergrid_cell_at(&table, 6, 1, &cell));
    WANT(cell.row == 0 && cell.column == 1);
    EACH(papergrid_cell_at(&table, 6, 2, &cell));
    WANT(cell.row == 2 && cell.column == 0);
    EACH(papergrid_push_string(&table, "more"));
    WANT(papergrid_place(&table, 0, 1, &place) == PAPERGRID_NOT_ESTIMATED);
    end(&table);
}

/* The sizes that are found, and the cells that certify them. */
static void sizes(void) {
    Papergrid table = PAPERGRID_NONE;
    PapergridPosition cells[4] = {{7, 7}, {7, 7}, {7, 7}, {7, 7}};
    size_t width, height, found[4] = {7, 7, 7, 7}, count = 7;
    begin(&table);
    EACH(papergrid_push_rows(&table, "together,\n", 10, ',', '\n'));
    EACH(papergrid_set_column_span(&table, 2, 0, 2));
    EACH(papergrid_set_row_span(&table, 0, 1, 2));
    WANT(papergrid_widths(&table, found, 4, &count) == PAPERGRID_NOT_ESTIMATED);
    WANT(papergrid_heights(&table, found, 4, &count) == PAPERGRID_NOT_ESTIMATED);
    WANT(papergrid_width_certificate(&table, cells, 4, &count) == PAPERGRID_NOT_ESTIMATED);
    WANT(papergrid_height_certificate(&table, cells, 4, &count) == PAPERGRID_NOT_ESTIMATED);
    WANT(count == 7 && found[0] == 7 && cells[0].row == 7);
    for (uint32_t least = 0; least < 2; least++) {
        EACH(papergrid_estimate(&table, least, &width, &height));
        found[0] = found[2] = cells[0].row = cells[1].row = 7;
        WANT(papergrid_widths(&table, found, 1, &count) == PAPERGRID_NO_ROOM && count == 2 && found[0] == 7);
        EACH(papergrid_widths(&table, found, 4, &count));
        WANT(count == 2 && found[0] == 4 && found[1] == 4 && found[2] == 7);
        WANT(papergrid_heights(&table, NULL, 0, &count) == PAPERGRID_NO_ROOM && count == 3);
        EACH(papergrid_heights(&table, found, 3, &count));
        WANT(count == 3 && found[0] == 1 && found[1] == 1 && found[2] == 1 && found[3] == 7);
        EACH(papergrid_width_certificate(&table, cells, 4, &count));
        WANT(count == 1 && cells[0].row == 2 && cells[0].column == 0 && cells[1].row == 7);
        WANT(papergrid_height_certificate(&table, cells, 2, &count) == PAPERGRID_NO_ROOM && count == 3 && cells[1].row == 7);
        EACH(papergrid_height_certificate(&table, cells, 3, &count));
        WANT(count == 3);
        for (size_t i = 0; i < 3; i++) WANT(cells[i].row == i && cells[i].column == 0);
        WANT(cells[3].row == 7);
    }
    end(&table);
}

/* Spans that cross: by shares nothing certifies the widths, and least ones are certified. */
static void crossing(void) {
    Papergrid table = PAPERGRID_NONE;
    PapergridPosition cells[4] = {{7, 7}, {7, 7}, {7, 7}, {7, 7}};
    size_t width, height, found[3], count = 7;
    EACH(papergrid_new(&table));
    EACH(papergrid_push_rows(&table, "wide,,c\nd,even,\n", 16, ',', '\n'));
    EACH(papergrid_set_column_span(&table, 0, 0, 2));
    EACH(papergrid_set_column_span(&table, 1, 1, 2));
    EACH(papergrid_estimate(&table, 0, &width, &height));
    WANT(papergrid_width_certificate(&table, cells, 4, &count) == PAPERGRID_NO_CERTIFICATE && count == 7 && cells[0].row == 7);
    EACH(papergrid_height_certificate(&table, cells, 4, &count));
    WANT(count == 2 && cells[0].row == 0 && cells[1].row == 1);
    EACH(papergrid_estimate(&table, 1, &width, &height));
    WANT(width == 5 && height == 2);
    EACH(papergrid_widths(&table, found, 3, &count));
    WANT(count == 3 && found[0] == 1 && found[1] == 3 && found[2] == 1);
    EACH(papergrid_width_certificate(&table, cells, 4, &count));
    WANT(count == 2 && cells[0].row == cells[1].row && cells[0].column == 0 && cells[1].column == 2 - cells[0].row);
    end(&table);
}

/* Values and texts that are none. What is refused changes nothing. */
static void bad(void) {
    Papergrid table = PAPERGRID_NONE;
    PapergridEntity none = {4, 0, 0};
    uint32_t characters[15] = {0xD800};
    begin(&table);
    WANT(papergrid_push_cell(&table, "\xff", 1) == PAPERGRID_NOT_TEXT);
    WANT(papergrid_push_rows(&table, "a\n\xc3,\xa9\n", 6, ',', '\n') == PAPERGRID_NOT_TEXT);
    WANT(papergrid_set_string(&table, "[\"SetBorderDefault\"]") == PAPERGRID_BAD_SETTING);
    WANT(papergrid_set_string(&table, "[\"SetBorderDefault\", \"ab\"]") == PAPERGRID_BAD_SETTING);
    WANT(papergrid_set_string(&table, "[\"None\"]") == PAPERGRID_BAD_SETTING);
    WANT(papergrid_set_string(&table, "{") == PAPERGRID_BAD_SETTING);
    WANT(papergrid_set_string(&table, "{}") == PAPERGRID_BAD_SETTING);
    WANT(papergrid_push_rows(&table, "a", 1, 0x80, '\n') == PAPERGRID_BAD_VALUE);
    WANT(papergrid_push_rows(&table, "\xff", 1, ',', 0xff) == PAPERGRID_BAD_VALUE);
    WANT(papergrid_set_padding(&table, none, 1, 1, 1, 1) == PAPERGRID_BAD_VALUE);
    WANT(papergrid_set_alignment(&table, papergrid_all(), 3) == PAPERGRID_BAD_VALUE);
    WANT(papergrid_set_vertical_alignment(&table, papergrid_all(), 3) == PAPERGRID_BAD_VALUE);
    WANT(papergrid_set_borders(&table, characters, 15) == PAPERGRID_BAD_VALUE);
    characters[0] = 0x110000;
    WANT(papergrid_set_borders(&table, characters, 15) == PAPERGRID_BAD_VALUE);
    WANT(papergrid_set_borders(&table, corners, 8) == PAPERGRID_BAD_VALUE);
    WANT(papergrid_set_border(&table, 0, 0, line, 4) == PAPERGRID_BAD_VALUE);
    WANT(papergrid_set_border(&table, SIZE_MAX, 0, corners, 8) == PAPERGRID_OUT_OF_RANGE);
    WANT(papergrid_insert_horizontal_line(&table, 0, characters, 4) == PAPERGRID_BAD_VALUE);
    WANT(papergrid_insert_vertical_line(&table, 0, corners, 8) == PAPERGRID_BAD_VALUE);
    draws(&table, 0, "ab\ncd\n");
    end(&table);
}

/* Tables that have no picture: the one before is kept, and the cell is told. */
static void no_picture(void) {
    Papergrid table = PAPERGRID_NONE;
    PapergridPosition at = {7, 7};
    size_t length = 7, height = 7;
    char picture[6];
    begin(&table);
    draws(&table, 0, "ab\ncd\n");
    EACH(papergrid_set_padding(&table, papergrid_all(), SIZE_MAX, 0, 0, 0));
    WANT(papergrid_draw(&table, 0, &length, &at) == PAPERGRID_TOO_LARGE && at.row == 7);
    WANT(papergrid_estimate(&table, 0, &length, &height) == PAPERGRID_TOO_LARGE);
    EACH(papergrid_set_padding(&table, papergrid_all(), 0, 0, 0, 0));
    EACH(papergrid_set_row_span(&table, 0, 1, 2));
    EACH(papergrid_set_column_span(&table, 1, 0, 2));
    WANT(papergrid_draw(&table, 0, &length, &at) == PAPERGRID_NOT_TILED && at.row == 1 && at.column == 1);
    EACH(papergrid_set_column_span(&table, 0, 1, 2));
    WANT(papergrid_draw(&table, 1, &length, &at) == PAPERGRID_OUT_OF_TABLE && at.row == 0 && at.column == 1);
    WANT(papergrid_estimate(&table, 1, &length, &height) == PAPERGRID_OUT_OF_TABLE);
    WANT(length == 7 && height == 7);
    WANT(papergrid_picture(&table, picture, 6) == PAPERGRID_OK && memcmp(picture, "ab\ncd\n", 6) == 0);
    end(&table);
}

/* A handle without a table, one that is freed twice, and one that is made anew. */
static void none(void) {
    Papergrid table = PAPERGRID_NONE;
    PapergridPlace place = {7, 7, 7, 7};
    PapergridPosition at = {7, 7};
    size_t width = 7, height = 7;
    char byte = '~';
    WANT(papergrid_push_cell(&table, "a", 1) == PAPERGRID_NO_TABLE);
    WANT(papergrid_end_row(&table) == PAPERGRID_NO_TABLE);
    WANT(papergrid_push_rows(&table, "a", 1, ',', '\n') == PAPERGRID_NO_TABLE);
    WANT(papergrid_set(&table, "[]", 2) == PAPERGRID_NO_TABLE);
    WANT(papergrid_set_padding(&table, papergrid_all(), 1, 1, 1, 1) == PAPERGRID_NO_TABLE);
    WANT(papergrid_set_alignment(&table, papergrid_all(), 0) == PAPERGRID_NO_TABLE);
    WANT(papergrid_set_vertical_alignment(&table, papergrid_all(), 9) == PAPERGRID_NO_TABLE);
    WANT(papergrid_set_frame(&table, &frame) == PAPERGRID_NO_TABLE);
    WANT(papergrid_set_border(&table, 0, 0, corners, 8) == PAPERGRID_NO_TABLE);
    WANT(papergrid_insert_horizontal_line(&table, 0, line, 4) == PAPERGRID_NO_TABLE);
    WANT(papergrid_insert_vertical_line(&table, 0, line, 4) == PAPERGRID_NO_TABLE);
    WANT(papergrid_set_column_span(&table, 0, 0, 2) == PAPERGRID_NO_TABLE);
    WANT(papergrid_set_row_span(&table, 0, 0, 2) == PAPERGRID_NO_TABLE);
    WANT(papergrid_estimate(&table, 0, &width, &height) == PAPERGRID_NO_TABLE && width == 7 && height == 7);
    WANT(papergrid_place(&table, 0, 0, &place) == PAPERGRID_NO_TABLE && place.left == 7);
    WANT(papergrid_cell_at(&table, 0, 0, &at) == PAPERGRID_NO_TABLE && at.row == 7);
    WANT(papergrid_widths(&table, &width, 1, &height) == PAPERGRID_NO_TABLE && width == 7 && height == 7);
    WANT(papergrid_heights(&table, &width, 1, &height) == PAPERGRID_NO_TABLE && width == 7 && height == 7);
    WANT(papergrid_width_certificate(&table, &at, 1, &height) == PAPERGRID_NO_TABLE && at.row == 7 && height == 7);
    WANT(papergrid_height_certificate(&table, &at, 1, &height) == PAPERGRID_NO_TABLE && at.row == 7 && height == 7);
    WANT(papergrid_draw(&table, 0, &width, &at) == PAPERGRID_NO_TABLE && width == 7 && at.column == 7);
    WANT(papergrid_picture(&table, &byte, 1) == PAPERGRID_NO_TABLE && byte == '~');
    papergrid_free(&table);
    begin(&table);
    WANT(papergrid_new(&table) == PAPERGRID_OK);
    draws(&table, 0, "");
    papergrid_free(&table);
    end(&table);
}

/* Slices of length 0, at NULL and elsewhere. */
static void empty(void) {
    Papergrid table = PAPERGRID_NONE;
    EACH(papergrid_new(&table));
    WANT(papergrid_picture(&table, NULL, 0) == PAPERGRID_OK);
    EACH(papergrid_push_rows(&table, NULL, 0, ',', '\n'));
    EACH(papergrid_push_rows(&table, "x", 0, ',', '\n'));
    draws(&table, 0, "");
    EACH(papergrid_push_cell(&table, NULL, 0));
    EACH(papergrid_push_cell(&table, "x", 0));
    draws(&table, 0, "\n");
    WANT(papergrid_picture(&table, NULL, 0) == PAPERGRID_NO_ROOM);
    WANT(papergrid_set(&table, NULL, 0) == PAPERGRID_BAD_SETTING);
    WANT(papergrid_set_borders(&table, NULL, 0) == PAPERGRID_BAD_VALUE);
    WANT(papergrid_set_border(&table, 0, 0, NULL, 0) == PAPERGRID_BAD_VALUE);
    WANT(papergrid_insert_horizontal_line(&table, 0, NULL, 0) == PAPERGRID_BAD_VALUE);
    WANT(papergrid_insert_vertical_line(&table, 0, NULL, 0) == PAPERGRID_BAD_VALUE);
    end(&table);
}

/* A table that is not made for lack of memory: the one before is gone. */
static void not_made(void) {
    Papergrid table = PAPERGRID_NONE;
    begin(&table);
    asked = 0, refuse_at = 0;
    WANT(papergrid_new(&table) == PAPERGRID_MEMORY);
    refuse_at = -1;
    refused++;
    WANT(papergrid_end_row(&table) == PAPERGRID_NO_TABLE);
    end(&table);
}

/* Each number has words of its own. */
static void words(void) {
    for (int32_t a = PAPERGRID_OK; a <= PAPERGRID_NO_CERTIFICATE + 1; a++)
        for (int32_t b = PAPERGRID_OK; b < a; b++) WANT(strcmp(papergrid_words(a), papergrid_words(b)) != 0);
}

int main(void) {
    plain();
    ended();
    cut();
    without_cells();
    settings();
    places();
    sizes();
    crossing();
    bad();
    no_picture();
    none();
    empty();
    not_made();
    words();
    printf("%ld answers as they should be, %ld requests for memory refused\n", answers, refused);
    return refused == 0;
}
