/* Calls the engine from C. `example FOLDER` lists roster.rma and recipe.bin of the folder page by page, and prints what the program
 * `rests` prints. `example` alone packs the two arrays of that roster from numbers, reads them back and asks about them, writes one as
 * JSON and reads the text; then it packs an array of six axes with longer names as a bundle of version 2, and lists it. */
#include <stdio.h>
#include <stdlib.h>
#include <string.h>
#include "rma.h"

#define MOST 32768 /* bytes of a file, and of the work area */

struct bytes { uint8_t *at; size_t len; };

/* Each on the heap and of its exact length, so that valgrind guards its ends. */
static struct bytes roster, recipe, work, row, text, starts, extent;
static uint8_t said[RMA_SAID];

/* Gives a buffer another length. One of length 0 has a pointer too: the engine takes no NULL. */
static void resize(struct bytes *buffer, size_t len)
{
    buffer->at = realloc(buffer->at, len > 0 ? len : 1);
    buffer->len = len;
    if (!buffer->at)
        exit(1);
}

/* Reads a file of the folder, one byte over MOST at most. A missing file counts as empty. */
static void take(const char *folder, const char *name, struct bytes *to)
{
    char path[4096];
    snprintf(path, sizeof path, "%s/%s", folder, name);
    FILE *file = fopen(path, "rb");
    resize(to, MOST + 1);
    resize(to, file ? fread(to->at, 1, to->len, file) : 0);
    if (file)
        fclose(file);
}

/* Asks for one page. */
static uint32_t page(uint32_t start)
{
    return rma_page(roster.at, roster.len, recipe.at, recipe.len, work.at, work.len, start, row.at, row.len, said, sizeof said);
}

/* Asks for pages of one row from ordinality 1 on, each where the last one said, until one has no row. Counts the rows, and prints
 * them if told to. Answers the refusal. */
static uint32_t list(int print, unsigned *found)
{
    uint32_t start = 1, refused;
    *found = 0;
    while ((refused = page(start)) == 0 && rma_u32(said) > 0) {
        start = rma_u32(said + 4);
        *found += 1;
        for (size_t i = 0; print && i < row.len; i += 4)
            printf("%d%c", (int32_t)rma_u32(row.at + i), i + 4 < row.len ? ' ' : '\n');
    }
    return refused;
}

/* Prints the listing, or the refusal, with its words on standard error. The plan tells how long a row is: four bytes and four for each
 * axis of the last result. The number of rows stands first, so the pages are gone through twice. */
static void print_listing(void)
{
    unsigned found;
    uint32_t refused = rma_plan(roster.at, roster.len, recipe.at, recipe.len, said, sizeof said);
    if (refused == 0) {
        resize(&work, MOST);
        resize(&row, 4 + 4 * rma_u32(said + 8));
        refused = list(0, &found);
    }
    if (refused) {
        printf("refused %u %u %u\n", refused, rma_u32(said), rma_u32(said + 4));
        fprintf(stderr, "place %u: %s\n", rma_u32(said), rma_words(refused));
    } else {
        printf("found %u\n", found);
        list(1, &found);
    }
}

#define NUMBER(n) n, 0, 0, 0                           /* a small one */
#define STAR 192, 189, 240, 255, 64, 66, 15, 0         /* the widest maximum: -1,000,000 and 1,000,000 */
#define WHO 'w', 'h', 'o', 0, 0, 0, 0, 0, NUMBER(1), NUMBER(2), STAR
#define TURN 't', 'u', 'r', 'n', 0, 0, 0, 0, NUMBER(1), NUMBER(3), STAR
#define AT(minute) {1, (minute) % 256, (minute) / 256} /* a filled cell */

/* Packs arrays as the roster, in that version. Refused, the roster stays empty. */
static void pack(uint32_t version, const uint8_t *heads, size_t heads_len, const uint8_t *cells, size_t cells_len)
{
    resize(&roster, MOST);
    uint32_t refused = rma_pack(version, heads, heads_len, cells, cells_len, roster.at, roster.len, said, sizeof said);
    resize(&roster, refused ? 0 : rma_u32(said));
}

/* Packs starts and ends of two people's three turns. */
static void pack_roster(void)
{
    static const uint8_t heads[2][RMA_HEAD_1] = {{1, 2, WHO, TURN}, {1, 2, WHO, TURN}}; /* type INT, two axes */
    static const uint8_t cells[12][9] = {AT(1320), AT(2760), AT(4200), AT(360), AT(1200), AT(3240),
                                         AT(1800), AT(3240), AT(4680), AT(840), AT(1680), AT(3720)};
    pack(1, &heads[0][0], sizeof heads, &cells[0][0], sizeof cells);
}

/* Asks about the packed roster. Minutes of a week fit in the lowest four bytes of a cell. */
static void ask(void)
{
    static const uint8_t coordinate[] = {NUMBER(2), NUMBER(1)};
    uint8_t place[] = {NUMBER(1)};
    rma_read(roster.at, roster.len, said, sizeof said);
    printf("packed: %zu bytes, %u arrays\n", roster.len, rma_u32(said));
    rma_refer(roster.at, roster.len, 1, coordinate, sizeof coordinate, said, sizeof said);
    printf("start of person 2, turn 1: %u\nwalked:", rma_u32(said + 1));
    while (rma_walk(roster.at, roster.len, 1, place, sizeof place, said, sizeof said) == 0 && said[0] == 1)
        printf(" %u", rma_u32(said + 2));
    rma_total(roster.at, roster.len, 2, 4, said, sizeof said);
    printf("\nlast end: %u\n", rma_u32(said + 1));
}

/* Writes the starts as JSON: a buffer of RMA_JSON bytes holds every text. */
static void write_starts(void)
{
    resize(&text, RMA_JSON);
    uint32_t refused = rma_write_json(roster.at, roster.len, 1, text.at, text.len, said, sizeof said);
    resize(&text, refused ? 0 : rma_u32(said));
    printf("starts: %.*s\n", (int)text.len, (const char *)text.at);
}

/* Reads a text into the cells of an array like that of the starts, and prints the last of them. Refused, the ordinality is a byte of
 * the text, from 1. */
static void read_starts(void)
{
    static const uint8_t head[RMA_HEAD_1] = {1, 2, WHO, TURN};
    resize(&starts, 6 * 9);
    uint32_t refused = rma_read_json(1, head, sizeof head, text.at, text.len, starts.at, starts.len, said, sizeof said);
    if (refused)
        printf("refused %u at byte %u\n", refused, rma_u32(said + 4));
    else
        printf("read: %u cells, the last %u\n", rma_u32(said), rma_u32(starts.at + 5 * 9 + 1));
}

/* Reads back what was written, and then a text that has a turn too few. */
static void read_texts(void)
{
    static const char shorter[] = "{\"data\":[[1320,2760],[360,1200,3240]]}";
    read_starts();
    resize(&text, strlen(shorter));
    memcpy(text.at, shorter, text.len);
    read_starts();
}

/* Puts an axis in a head of version 2: a name of up to 16 letters, limits from 1 on, the widest maximum. */
static void put_axis(uint8_t *head, int axis, const char *name, uint8_t upper)
{
    const uint8_t limits[] = {NUMBER(1), NUMBER(upper), STAR};
    uint8_t *slot = head + 2 + 32 * axis;
    memset(slot, 0, 16);
    memcpy(slot, name, strlen(name));
    memcpy(slot + 16, limits, sizeof limits);
}

/* Packs the rests of two people after two turns, on six axes. */
static void pack_rests(void)
{
    static const char *const names[] = {"branch", "depot", "line", "person_on_call", "week", "turn"};
    static const uint8_t upper[] = {1, 1, 1, 2, 1, 2};
    static const uint8_t cells[4][9] = {AT(960), AT(960), AT(360), AT(1560)};
    uint8_t head[RMA_HEAD_2] = {1, 6}; /* type INT, six axes */
    for (int axis = 0; axis < 6; axis++)
        put_axis(head, axis, names[axis], upper[axis]);
    pack(2, head, sizeof head, &cells[0][0], sizeof cells);
    printf("packed in version 2: %zu bytes\n", roster.len);
}

/* Lists those below 660 minutes by a recipe of one step of 100 bytes, and prints the axes of its result. */
static void list_rests(void)
{
    static const uint8_t below_660[100] = {10, 1, 0, 0, 8, 0, 0, 0, 660 % 256, 660 / 256}; /* right scalar, array 1, operator < */
    resize(&recipe, sizeof below_660);
    memcpy(recipe.at, below_660, sizeof below_660);
    print_listing();
    resize(&extent, RMA_HEAD_2);
    if (rma_extent(roster.at, roster.len, recipe.at, recipe.len, extent.at, extent.len, said, sizeof said) == 0)
        for (int axis = 0; axis < extent.at[1]; axis++)
            printf("%.16s%c", (const char *)extent.at + 2 + 32 * axis, axis + 1 < extent.at[1] ? ' ' : '\n');
}

/* Lists the two files of a folder. */
static void list_folder(const char *folder)
{
    take(folder, "roster.rma", &roster);
    take(folder, "recipe.bin", &recipe);
    if (roster.len > MOST || recipe.len > MOST)
        puts("too long");
    else
        print_listing();
}

int main(int argc, char **argv)
{
    if (argc < 2) {
        pack_roster();
        ask();
        write_starts();
        read_texts();
        pack_rests();
        list_rests();
    } else {
        list_folder(argv[1]);
    }
    free(roster.at);
    free(recipe.at);
    free(work.at);
    free(row.at);
    free(text.at);
    free(starts.at);
    free(extent.at);
    return 0;
}
