/* Reads JSON that others wrote: takes questions from standard input, has the engine read each text, and prints what it finds. A question
 * is a line `NAME TYPE BYTES WIDTH..` (TYPE 1 INT, 3 BOOLEAN), so many bytes of text, and a newline. The answer is the line `== NAME`,
 * then the widths and a line a cell, or `refused NUMBER PLACE ORDINALITY`. It also checks, for each text, that both versions of the head
 * are answered alike, what stays of the buffer, and that a text cut at the byte that 15 names is refused there; its status is the number
 * of checks that failed, 99 at most, or 100 for a question that it doesn't understand. */
#include <inttypes.h>
#include <stdio.h>
#include <stdlib.h>
#include <string.h>
#include "rma.h"

#define MOST 4096 /* cells of an array */
#define AXES 6    /* the most axes, in version 2 */
#define MARK 0xA5 /* fills what is lent: no first byte of a cell */

enum { INT = 1, BOOLEAN = 3 };

struct answer { uint32_t number, place, ordinality; };
struct question { char name[64]; int type, rank, width[AXES]; size_t count; };

static struct question asked;
static uint8_t *text; /* on the heap and of its exact length, so that valgrind guards its end */
static size_t text_len;
static uint8_t head[2][RMA_HEAD_2], room[9 * MOST + 64], said[RMA_SAID];
static int texts, failed;

static void must(int holds, const char *what)
{
    if (!holds && failed++ < 10)
        fprintf(stderr, "wrong: %s (text %s)\n", what, asked.name);
}

static void put(uint8_t *to, int64_t number)
{
    for (int i = 0; i < 4; i++)
        to[i] = (uint8_t)((uint64_t)number >> 8 * i);
}

/* The head of either version, whose names fill all their bytes. Lower limits vary; the maximum, which is not looked at, is crossed. */
static void put_head(int version)
{
    int name = version == 1 ? 8 : 16;
    uint8_t *to = head[version - 1];
    memset(to, 0xFF, RMA_HEAD_2);
    to[0] = (uint8_t)asked.type;
    to[1] = (uint8_t)asked.rank;
    for (int i = 0; i < asked.rank; i++) {
        uint8_t *slot = to + 2 + (name + 16) * i, *limits = slot + name;
        int lower = (texts + 5 * i) % 9 - 4;
        memset(slot, 'a', (size_t)name);
        slot[name - 1] = (uint8_t)('a' + i);
        put(limits, lower);
        put(limits + 4, lower + asked.width[i] - 1);
        put(limits + 8, 1000000);
        put(limits + 12, -1000000);
    }
}

/* The bytes from `from` on are as they were. */
static int kept(const uint8_t *at, size_t from, size_t len)
{
    while (from < len && at[from] == MARK)
        from++;
    return from >= len;
}

/* Has the text's first `len` bytes read, with so many bytes lent. A refusal must leave the buffer as it was, and so must an answer what
 * lies behind the cells. An answer's ordinality is the number of cells. */
static struct answer ask(int version, size_t len, size_t lent)
{
    memset(room, MARK, sizeof room);
    memset(said, MARK, sizeof said);
    size_t head_len = version == 1 ? RMA_HEAD_1 : RMA_HEAD_2;
    struct answer answer = {0, 0, 0};
    answer.number = rma_read_json((uint32_t)version, head[version - 1], head_len, text, len, room, lent, said, sizeof said);
    answer.place = answer.number ? rma_u32(said) : 0;
    answer.ordinality = rma_u32(answer.number ? said + 4 : said);
    must(kept(said, answer.number ? 8 : 4, sizeof said), "bytes of `said` after the answer stay");
    must(kept(room, answer.number ? 0 : 9 * asked.count, sizeof room), "bytes after the cells stay, and all where it is refused");
    return answer;
}

static int same(struct answer a, struct answer b)
{
    return a.number == b.number && a.place == b.place && a.ordinality == b.ordinality;
}

/* With nine bytes a cell the cells are the same; with one byte fewer it is 14. */
static void check_room(int version, struct answer answer)
{
    static uint8_t cells[9 * MOST];
    must(answer.ordinality == asked.count, "the answer is the number of cells");
    memcpy(cells, room, 9 * asked.count);
    must(same(ask(version, text_len, 9 * asked.count - 1), (struct answer){14, 0, 0}), "one byte too few is refused with 14");
    must(same(ask(version, text_len, 9 * asked.count), answer), "nine bytes a cell are enough");
    must(memcmp(cells, room, 9 * asked.count) == 0, "the same cells again");
}

/* What 15 says of its byte: what stands before it begins an object, and with it no longer does. Cut before it, the text ends early there,
 * or is whole; cut behind it, it is refused at the same byte, or one later where a quote may yet open another name than `data`. */
static void check_cut(int version, struct answer answer)
{
    size_t at = answer.ordinality;
    must(at >= 1 && at <= text_len + 1, "15 names a byte of the text, or one past its end");
    struct answer cut = ask(version, at - 1, sizeof room);
    must(same(cut, answer) || (cut.number != 15 && at <= text_len), "cut before the byte that 15 names, it ends early there, or is whole");
    if (at > text_len)
        return;
    cut = ask(version, at, sizeof room);
    cut.ordinality -= text[at - 1] == '"' && cut.ordinality == at + 1;
    must(same(cut, answer), "cut behind the byte that 15 names, it is refused there");
}

static void print_cells(void)
{
    for (int i = 0; i < asked.rank; i++)
        printf("%d%c", asked.width[i], i + 1 < asked.rank ? ' ' : '\n');
    for (size_t i = 0; i < asked.count; i++) {
        const uint8_t *cell = room + 9 * i;
        uint64_t number = rma_u32(cell + 1) | (uint64_t)rma_u32(cell + 5) << 32;
        must(cell[0] < 2 && (cell[0] || number == 0) && (asked.type == INT || number < 2), "a cell");
        if (cell[0] && asked.type == INT)
            printf("%" PRId64 "\n", (int64_t)number);
        else
            printf("%s\n", cell[0] ? number ? "true" : "false" : "null");
    }
}

/* Answers the question, by the oldest version that has as many axes; by both where there are two. */
static void answer_it(void)
{
    int version = asked.rank <= 4 ? 1 : 2;
    for (int v = version; v <= 2; v++)
        put_head(v);
    struct answer answer = ask(version, text_len, sizeof room);
    printf("== %s\n", asked.name);
    if (answer.number)
        printf("refused %u %u %u\n", (unsigned)answer.number, (unsigned)answer.place, (unsigned)answer.ordinality);
    else
        print_cells();
    if (version == 1)
        must(same(ask(2, text_len, sizeof room), answer), "both versions are answered alike");
    if (answer.number == 0)
        check_room(2, answer);
    if (answer.number == 15)
        check_cut(version, answer);
}

/* The next question: 0 at the end. What is no question ends the program. */
static int take(void)
{
    char line[256], *at = line;
    int used = 0;
    if (!fgets(line, sizeof line, stdin))
        return 0;
    if (sscanf(line, "%63s %d %zu%n", asked.name, &asked.type, &text_len, &used) != 3)
        exit(100);
    asked.count = 1;
    for (asked.rank = 0, at += used; asked.rank < AXES && sscanf(at, "%d%n", &asked.width[asked.rank], &used) == 1; at += used)
        asked.count *= (size_t)asked.width[asked.rank++];
    text = realloc(text, text_len > 0 ? text_len : 1);
    if (!text || asked.rank == 0 || asked.count > MOST || fread(text, 1, text_len, stdin) != text_len || getchar() != '\n')
        exit(100);
    return ++texts;
}

int main(void)
{
    while (take())
        answer_it();
    free(text);
    return failed < 100 ? failed : 99;
}
