/* Makes the texts that the readers read: packs arrays of INT and BOOLEAN, and has the engine write each as JSON. `write FOLDER` puts the
 * texts in FOLDER/texts, and in FOLDER/want what a reader must find, printed from the cells: for each text its name, the widths, and a
 * line a cell. FOLDER/types has a line a text: its name, and its type as read.c takes it. Bundles are of version 1, and of version 2 where
 * an array has over four axes. It also checks refusals and what stays of the buffer; its status is the number of checks that failed, 100
 * at most. */
#include <inttypes.h>
#include <stdio.h>
#include <stdlib.h>
#include <string.h>
#include "rma.h"

#define MOST 4096 /* cells of an array */
#define AXES 6    /* the most axes, in version 2 */
#define MARK 0xA5 /* fills what is lent: no byte of a text */

enum { INT = 1, FLOAT, BOOLEAN };
enum { MIXED, EDGES, LEAST, NONE }; /* cells: of all sorts, edge values in turn, the smallest number only, all empty */

struct cell { int filled; int64_t number; };
struct array { int type, rank, width[AXES], count; struct cell cells[MOST]; };

static struct array held[4]; /* the arrays of the next bundle */
static int holding, together = 1, texts, failed;
static uint8_t bundle[4 * (RMA_HEAD_2 + 9 * MOST) + 6], room[RMA_JSON + 64], said[RMA_SAID];
static size_t bundle_len, longest;
static int64_t edges[128];
static int edge_count;
static uint64_t state = 88172645463325252u;
static const char *folder;
static FILE *want, *types;

static uint64_t next(void)
{
    state ^= state << 13;
    state ^= state >> 7;
    return state ^= state << 17;
}

static void must(int holds, const char *what)
{
    if (!holds && failed++ < 10)
        printf("wrong: %s (text %03d)\n", what, texts);
}

static FILE *opened(const char *name)
{
    char path[4096];
    snprintf(path, sizeof path, "%s/%s", folder, name);
    FILE *file = fopen(path, "wb");
    if (!file) {
        perror(path);
        exit(100);
    }
    return file;
}

/* Edge values: every 10^k and 10^k - 1, numbers about 2^53, the largest; each with its negative, so 0, 1 and -1 too. Then the smallest. */
static void find_edges(void)
{
    static const int64_t others[] = {9007199254740991, 9007199254740992, 9007199254740993, INT64_MAX - 1, INT64_MAX};
    int64_t power = 1;
    int n = 0;
    for (int k = 0; k <= 18; k++) {
        edges[n++] = power - 1;
        edges[n++] = power;
        power *= k < 18 ? 10 : 1;
    }
    for (size_t i = 0; i < sizeof others / sizeof *others; i++)
        edges[n++] = others[i];
    for (int i = 0; i < n; i++)
        edges[n + i] = -edges[i];
    edges[2 * n] = INT64_MIN;
    edge_count = 2 * n + 1;
}

/* A cell. Mixed: one in four empty, one in four an edge value, the rest of 1 to 64 bits and either sign. */
static struct cell made(int type, int fill, int i)
{
    uint64_t r = next();
    struct cell cell = {fill != NONE && (fill != MIXED || r % 4 > 0), 0};
    if (!cell.filled)
        return cell;
    if (type == BOOLEAN)
        cell.number = (int64_t)(r >> 32 & 1);
    else if (fill == LEAST)
        cell.number = INT64_MIN;
    else if (fill == EDGES || r % 4 == 1)
        cell.number = edges[(fill == EDGES ? (uint64_t)i : r >> 32) % (uint64_t)edge_count];
    else
        cell.number = (int64_t)next() >> (r >> 32) % 64;
    return cell;
}

static void put(uint8_t *to, uint64_t number, int bytes)
{
    for (int i = 0; i < bytes; i++)
        to[i] = (uint8_t)(number >> 8 * i);
}

/* An array's head, whose names fill all their bytes. Lower limits and maxima vary: a text tells nothing of them. */
static void put_head(uint8_t *head, const struct array *a, int name)
{
    head[0] = (uint8_t)a->type;
    head[1] = (uint8_t)a->rank;
    for (int i = 0; i < a->rank; i++) {
        uint8_t *slot = head + 2 + (name + 16) * i, *limits = slot + name;
        int64_t lower = (int64_t)(next() % 9) - 4, upper = lower + a->width[i] - 1;
        memset(slot, 'a', (size_t)name);
        slot[name - 1] = (uint8_t)('a' + i);
        put(limits, (uint64_t)lower, 4);
        put(limits + 4, (uint64_t)upper, 4);
        put(limits + 8, (uint64_t)(lower - (int64_t)(next() % 3)), 4);
        put(limits + 12, (uint64_t)(upper + (int64_t)(next() % 3)), 4);
    }
}

/* Packs the arrays that are held: in version 1 where all have up to four axes. */
static void pack(void)
{
    static uint8_t heads[4 * RMA_HEAD_2], cells[4 * 9 * MOST];
    uint32_t version = 1;
    size_t len = 0;
    for (int k = 0; k < holding; k++)
        version = held[k].rank > 4 ? 2 : version;
    size_t head = version == 1 ? RMA_HEAD_1 : RMA_HEAD_2;
    memset(heads, 0, sizeof heads);
    memset(cells, 0, sizeof cells);
    for (int k = 0; k < holding; k++) {
        put_head(heads + (size_t)k * head, &held[k], version == 1 ? 8 : 16);
        for (int i = 0; i < held[k].count; i++, len += 9) {
            cells[len] = (uint8_t)held[k].cells[i].filled;
            put(cells + len + 1, (uint64_t)held[k].cells[i].number, 8);
        }
    }
    uint32_t refused = rma_pack(version, heads, (size_t)holding * head, cells, len, bundle, sizeof bundle, said, sizeof said);
    must(refused == 0, "a bundle is packed");
    bundle_len = refused ? 0 : rma_u32(said);
}

/* The bytes from `from` on are as they were. */
static int kept(const uint8_t *at, size_t from, size_t len)
{
    while (from < len && at[from] == MARK)
        from++;
    return from >= len;
}

/* Asks for array k's text, with this many bytes lent. */
static uint32_t ask(uint32_t k, size_t lent)
{
    memset(room, MARK, sizeof room);
    memset(said, MARK, sizeof said);
    return rma_write_json(bundle, bundle_len, k, room, lent, said, sizeof said);
}

/* It's refused so, and nothing is written. */
static void must_refuse(uint32_t k, size_t lent, uint32_t number, uint32_t place, const char *what)
{
    must(ask(k, lent) == number && rma_u32(said) == place && rma_u32(said + 4) == 0, what);
    must(kept(room, 0, sizeof room) && kept(said, 8, sizeof said), "a refusal leaves the buffer as it was");
}

/* Prints what a reader must find: name, widths, cells; and the type. */
static void print_wanted(const struct array *a)
{
    fprintf(want, "== %03d\n", texts);
    fprintf(types, "%03d %d\n", texts, a->type);
    for (int i = 0; i < a->rank; i++)
        fprintf(want, "%d%c", a->width[i], i + 1 < a->rank ? ' ' : '\n');
    for (int i = 0; i < a->count; i++) {
        const struct cell *c = &a->cells[i];
        if (c->filled && a->type == INT)
            fprintf(want, "%" PRId64 "\n", c->number);
        else
            fprintf(want, "%s\n", c->filled ? c->number ? "true" : "false" : "null");
    }
}

/* Writes the text of array k of the bundle: with the room for every text, with one byte too few, with the room that it takes. */
static void write_text(uint32_t k, const struct array *a)
{
    static uint8_t text[RMA_JSON];
    char name[32];
    snprintf(name, sizeof name, "texts/%03d.json", ++texts);
    uint32_t refused = ask(k, RMA_JSON), len = refused ? 0 : rma_u32(said);
    must(refused == 0 && len > 0 && len <= RMA_JSON, "a text is written");
    must(kept(said, 4, sizeof said), "bytes of `said` after the length stay");
    if (len == 0 || len > RMA_JSON)
        len = 1;
    must(kept(room, len, sizeof room), "bytes after the text stay");
    memcpy(text, room, len);
    must_refuse(k, len - 1, 14, 0, "one byte too few is refused with 14");
    must(ask(k, len) == 0 && rma_u32(said) == len, "the room that it takes is enough");
    must(memcmp(text, room, len) == 0 && kept(room, len, sizeof room), "the same text again");
    FILE *file = opened(name);
    fwrite(text, 1, len, file);
    fclose(file);
    print_wanted(a);
    longest = len > longest ? len : longest;
}

/* Packs what is held, one to four arrays in turn, and writes their texts. */
static void write_held(void)
{
    pack();
    for (int k = 0; k < holding; k++)
        write_text((uint32_t)k + 1, &held[k]);
    holding = 0;
    together = together % 4 + 1;
}

/* Holds an array of these widths; 0 ends them. */
static void hold(int type, int fill, const int widths[AXES])
{
    struct array *a = &held[holding++];
    a->type = type;
    a->rank = 0;
    a->count = 1;
    while (a->rank < AXES && widths[a->rank] > 0) {
        a->width[a->rank] = widths[a->rank];
        a->count *= widths[a->rank++];
    }
    for (int i = 0; i < a->count; i++)
        a->cells[i] = made(type, fill, i);
}

static void add(int type, int fill, const int widths[AXES])
{
    hold(type, fill, widths);
    if (holding == together)
        write_held();
}

/* Widths of 1 on so many axes; 0 ends them. */
static void ones(int rank, int widths[AXES])
{
    for (int i = 0; i < AXES; i++)
        widths[i] = i < rank;
}

/* Every rank up to 4 with every choice of widths 1 to 3, 5 and 6 with every choice of 1 and 2; both types. */
static void small_ones(void)
{
    for (int rank = 1; rank <= AXES; rank++) {
        int most = rank <= 4 ? 3 : 2, choices = 1, widths[AXES];
        for (int i = 0; i < rank; i++)
            choices *= most;
        for (int k = 0; k < choices; k++) {
            ones(rank, widths);
            for (int i = rank - 1, left = k; i >= 0; i--, left /= most)
                widths[i] += left % most;
            add(INT, MIXED, widths);
            add(BOOLEAN, MIXED, widths);
        }
    }
}

/* Every rank with n cells along one axis and 1 along the others: edge values, and all empty. */
static void long_ones(void)
{
    for (int rank = 1; rank <= AXES; rank++)
        for (int axis = 0; axis < rank; axis++) {
            int n[AXES], e[AXES];
            ones(rank, n);
            ones(rank, e);
            n[axis] = edge_count;
            e[axis] = 5;
            add(INT, EDGES, n);
            add(BOOLEAN, MIXED, n);
            add(INT, NONE, e);
            add(BOOLEAN, NONE, e);
        }
}

/* Every rank with one empty cell; 4,096 cells; the longest text of each version. */
static void ends(void)
{
    static const int large[][AXES] = {{MOST}, {64, 64}, {16, 16, 16}, {8, 8, 8, 8}, {1, 1, 1, MOST},
                                      {4, 4, 4, 4, 4, 4}, {1, 1, 1, 1, 1, MOST}};
    for (int type = INT; type <= BOOLEAN; type += BOOLEAN - INT) {
        for (int rank = 1; rank <= AXES; rank++) {
            int widths[AXES];
            ones(rank, widths);
            add(type, NONE, widths);
        }
        for (size_t k = 0; k < sizeof large / sizeof *large; k++)
            add(type, MIXED, large[k]);
    }
    if (holding > 0)
        write_held();
    hold(INT, LEAST, (const int[AXES]){MOST, 1, 1, 1});
    write_held();
    must(longest == 110602, "the longest text of version 1 has 110,602 bytes");
    hold(INT, LEAST, (const int[AXES]){MOST, 1, 1, 1, 1, 1});
    write_held();
    must(longest == RMA_JSON, "the longest text has RMA_JSON bytes");
}

/* FLOAT, filled with 0.0 or empty, before the room is looked at; no such array; a bundle that is cut. */
static void refusals(void)
{
    hold(INT, MIXED, (const int[AXES]){2, 2});
    hold(FLOAT, NONE, (const int[AXES]){2, 2});
    hold(FLOAT, NONE, (const int[AXES]){3});
    hold(BOOLEAN, MIXED, (const int[AXES]){2, 2});
    for (int i = 0; i < held[1].count; i++)
        held[1].cells[i].filled = 1;
    pack();
    must_refuse(2, RMA_JSON, 7, 2, "FLOAT is refused with 7 and the array");
    must_refuse(3, RMA_JSON, 7, 3, "FLOAT is refused with 7 and the array, also all empty");
    must_refuse(2, 0, 7, 2, "FLOAT is refused with 7 before 14");
    must_refuse(0, RMA_JSON, 4, 0, "array 0 is refused with 4");
    must_refuse(5, RMA_JSON, 4, 5, "array 5 of 4 is refused with 4 and its number");
    must_refuse(1, 0, 14, 0, "no room is refused with 14");
    bundle_len--;
    must_refuse(1, RMA_JSON, 1, 4, "a bundle that is cut is refused with 1 and the array");
}

int main(int argc, char **argv)
{
    if (argc < 2)
        return 100;
    folder = argv[1];
    want = opened("want");
    types = opened("types");
    find_edges();
    small_ones();
    long_ones();
    ends();
    refusals();
    fclose(want);
    fclose(types);
    printf("written: %d texts; of refusals and of what stays %d checks failed\n", texts, failed);
    return failed < 100 ? failed : 100;
}
