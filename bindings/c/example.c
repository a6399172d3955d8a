/* Draws a table whose cells a file has, one row a line, with commas between: example FILE */
#include "papergrid.h"
#include <stdio.h>
#include <stdlib.h>

static char text[1 << 16];

/* The file's bytes in `text`, or their count 0 where there is no such file. */
static size_t read_file(const char *name) {
    FILE *file = fopen(name, "rb");
    if (!file) return 0;
    size_t length = fread(text, 1, sizeof text, file);
    fclose(file);
    return length;
}

/* Round corners, a blank on both sides of each text, and a line below the head. */
static int32_t set_style(Papergrid *table) {
    PapergridBorders frame = {
        .top = 0x2500, .top_left = 0x256D, .top_right = 0x256E, .top_intersection = 0x252C,
        .bottom = 0x2500, .bottom_left = 0x2570, .bottom_right = 0x256F, .bottom_intersection = 0x2534,
        .left = 0x2502, .vertical = 0x2502, .right = 0x2502,
    };
    uint32_t head[4] = {0x2500, 0x253C, 0x251C, 0x2524};
    int32_t answer = papergrid_set_frame(table, &frame);
    if (!answer) answer = papergrid_insert_horizontal_line(table, 1, head, 4);
    if (!answer) answer = papergrid_set_padding(table, papergrid_all(), 1, 1, 0, 0);
    return answer;
}

static int32_t write_picture(Papergrid *table, size_t length) {
    char *picture = malloc(length + 1);
    if (!picture) return PAPERGRID_MEMORY;
    int32_t answer = papergrid_picture(table, picture, length);
    if (!answer) fwrite(picture, 1, length, stdout);
    free(picture);
    return answer;
}

int main(int count, char **words) {
    Papergrid table = PAPERGRID_NONE;
    PapergridPosition at = {0, 0};
    size_t length = count == 2 ? read_file(words[1]) : 0;
    int32_t answer = papergrid_new(&table);
    if (!answer) answer = papergrid_push_rows(&table, text, length, ',', '\n');
    if (!answer) answer = set_style(&table);
    if (!answer) answer = papergrid_draw(&table, 0, &length, &at);
    if (!answer) answer = write_picture(&table, length);
    papergrid_free(&table);
    if (answer) fprintf(stderr, "%s\n", papergrid_words(answer));
    return answer != PAPERGRID_OK;
}
