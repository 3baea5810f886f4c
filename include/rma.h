/* The C face of Rovgrint, a proved engine for small multi-dimensional arrays: thirteen functions of librma.a (x86-64 Linux).
 * `tools/staticlib.sh` at the repository's root proves and writes target/staticlib/librma.a. An example is c/example.c. docs/FORMAT.md
 * has bundles, recipes, rows, heads and answers byte by byte.
 *
 * Rules of every call:
 * - A byte slice is two arguments, a pointer and its length. The pointer is never NULL, also for length 0.
 * - A buffer that a call writes to (out, work, rows, place, extent, said, and cells where it is not const) overlaps no other
 *   argument. Nothing else is written to.
 * - Numbers in bytes are little-endian. Arrays, axis indexes, steps and ordinalities are counted from 1.
 * - No call keeps a pointer, allocates or prints. None has a condition to meet: bytes of any length and content get an answer.
 * - A call returns the number of its refusal, 0 for none. Refused, `said` begins with the place and the ordinality (two u32);
 *   else with the bytes that the function's comment names. Bytes of `said` after these stay. An answer longer than said_len
 *   is cut there; RMA_SAID bytes are room for every answer.
 *
 * A cell is nine bytes: nine zeros when empty, else 1 and eight bytes (INT: two's complement, FLOAT: binary64, BOOLEAN: 0 or 1).
 * Arithmetic and comparisons with an empty cell give an empty cell, which is not TRUE.
 *
 * A bundle is of version 1 or 2. They differ in the bytes of a name, in the number of axes, and in what follows from these:
 *
 *                                        version 1            version 2
 *     a name, padded with zeros          8 bytes              16 bytes
 *     axes of an array                   1 to 4               1 to 6
 *     an axis: name and four limits      24 bytes             32 bytes
 *     a head                             RMA_HEAD_1, 98       RMA_HEAD_2, 194
 *     a step: 4 and its detail           36 bytes, 32 of them 100 bytes, 96 of them
 *     a recipe, 1 to 16 steps            36 to 576 bytes      100 to 1,600 bytes
 *     a coordinate, and a row with it    to 16 and 20 bytes   to 24 and 28 bytes
 *
 * What takes a bundle finds its version in its bytes; a recipe is one of the bundle's version, and steps of the other version are 4.
 * rma_pack, rma_stretch and rma_read_json are told the version by their first argument, which is judged in all its 32 bits: other than
 * 1 and 2 is refused with 1, place 0, before all else.
 *
 * A head tells an array without its cells: type (1 INT, 2 FLOAT, 3 BOOLEAN), axis count, then a slot for each axis that the version has:
 * name, lower, upper, maximum lower, maximum upper (i32 each). Slots past the last axis are not looked at. An axis count over 4 in
 * version 1, over 6 in version 2, is taken as 0, which is refused. Where a head is made from a name that is too long for the version,
 * the name is not cut, but put down as one that is refused, such as all zeros: so it is refused with 2 in its turn.
 *
 * Refusals: 1 mark, version, count, type, axis count or length bad. 2 extent bad: names, limits, maximum, over 4,096 cells.
 * 3 not a cell. 4 recipe length, operation, operand, operator, unused byte, or no such array. 5 no such axis, or wrong number of
 * coordinates. 6 outside. 7 types unfit. 8 axis count, names or limits differ. 9 the result's extent is bad. 10 work area under 9T
 * bytes. 11 no room for a row, or start outside. 12 a value doesn't fit. 13 division by zero. 14 no room for the bundle,
 * the text, the head or the cells. 15 the text is not one JSON object with one `data`. 16 a value or bracket in `data` does not fit the
 * type and extent. rma_words has them as sentences.
 *
 * The ordinality of 8 says what differs first: 4 the number of axes (of a place, where B has not one axis fewer than A), before any axis
 * is compared; else 10 times an axis index and 1 (its name), 2 (its lower limit) or 3 (its upper limit), of the first axis of A that
 * differs, name before lower before upper. With four axes it goes up to 43, with six to 63. A pair compares all names and limits; an
 * update and a place names alone, a place without A's placed axis, the index counted in A; a glue and a stretch names and limits, of
 * the axis glued along the name alone. */
#ifndef RMA_H
#define RMA_H

#include <stddef.h>
#include <stdint.h>

#define RMA_SAID 16 /* bytes: the longest answer */
#define RMA_HEAD_1 98 /* bytes: a head of version 1 */
#define RMA_HEAD_2 194 /* bytes: a head of version 2 */
#define RMA_JSON 126986 /* bytes: the longest text of rma_write_json, on six axes; on four it is 110602 */

#ifdef __cplusplus
extern "C" {
#endif

/* Judges a bundle of either version. `said`: the count of its arrays (u32). Refused 1, 2 or 3, with the array as place (0: the first
 * six bytes, a version other than 1 and 2 among them, or bytes left over). */
uint32_t rma_read(const uint8_t *bundle, size_t bundle_len, uint8_t *said, size_t said_len);

/* Tells where an array of a bundle lies. `said`: type, axis count, number of cells, and the byte of the bundle at which its cells
 * begin (four u32); its axes end there, 24 bytes each in version 1, 32 in version 2; the version is the u16 at byte 3 of the bundle.
 * Refused as rma_read, then 4 (no such array, place: the array asked for). */
uint32_t rma_array(const uint8_t *bundle, size_t bundle_len, uint32_t array, uint8_t *said, size_t said_len);

/* Packs 1 to 4 arrays as a bundle of `version`, 1 or 2: `heads` of that version in turn, `cells` of all arrays in turn. `said`: the
 * bundle's length (u32). `out`: the bundle, then what was there; untouched by a refusal. Refused 1 with place 0 for another version,
 * then where `heads` is not 1 to 4 times RMA_HEAD_1 bytes in version 1, RMA_HEAD_2 in version 2; then as rma_read refuses the bundle;
 * then 14 (`out` is shorter than the bundle). */
uint32_t rma_pack(uint32_t version, const uint8_t *heads, size_t heads_len, const uint8_t *cells, size_t cells_len, uint8_t *out,
                  size_t out_len, uint8_t *said, size_t said_len);

/* Refers to a cell. `coordinate`: an i32 for each axis. `said`: the cell (nine bytes), empty where the coordinate lies inside the
 * maximum but not the extent. Refused as rma_read, then with the array as place 4 (no such array), 5 (wrong number of coordinates;
 * also for a length over 24 or no multiple of 4), 6 (beyond the maximum). */
uint32_t rma_refer(const uint8_t *bundle, size_t bundle_len, uint32_t array, const uint8_t *coordinate, size_t coordinate_len,
                   uint8_t *said, size_t said_len);

/* Walks on by one cell. `place`: the walking place (u32), an ordinality; begin with 1. `said`: 1 and the cell there (nine bytes),
 * and `place` is moved forward by one; at the end, cells + 1, ten zeros, and `place` stays. Bytes of `place` after four stay; one of
 * under four bytes counts as walking place 0. Refused as rma_read, then with the array as place 4 (no such array), 6 (walking place
 * 0 or over cells + 1); `place` stays. */
uint32_t rma_walk(const uint8_t *bundle, size_t bundle_len, uint32_t array, uint8_t *place, size_t place_len, uint8_t *said,
                  size_t said_len);

/* Totals an array; empty cells are skipped. `which`: 1 count of filled, 2 count of TRUE (BOOLEAN), 3 smallest, 4 largest, 5 sum
 * (INT, FLOAT), 6 average (FLOAT). `said`: a cell (nine bytes), a count as an INT; 3 to 6 of nothing filled are empty. Refused as
 * rma_read, then with the array as place 4 (no such array, or another `which`), 7 (type unfit), 12 (an INT sum that doesn't fit,
 * ordinality 0; a FLOAT sum or average that isn't finite, ordinality of the cell whose addition fails). */
uint32_t rma_total(const uint8_t *bundle, size_t bundle_len, uint32_t array, uint32_t which, uint8_t *said, size_t said_len);

/* Writes an array as JSON: an object with one member, {"data":[[1,2],[5,6]]}, a bracket deeper for each axis, the first axis
 * outermost. No space, no newline, no zero byte at the end. INT in shortest decimal, BOOLEAN as true and false, an empty cell as null.
 * `said`: the text's length (u32). `out`: the text, then what was there; untouched by a refusal. Refused as rma_read, then with the
 * array as place 4 (no such array), 7 (FLOAT), then with place 0 14 (`out` is shorter than the text). RMA_JSON bytes are room for
 * every text of either version; n cells on d axes take at most 10 + n * (19 + 2 * d). */
uint32_t rma_write_json(const uint8_t *bundle, size_t bundle_len, uint32_t array, uint8_t *out, size_t out_len, uint8_t *said,
                        size_t said_len);

/* Reads JSON into an array whose type and extent `head` names: a head of `version`, 1 or 2, as rma_stretch takes it; its maximum is not
 * looked at. `text`: one object in UTF-8, nested to 16 levels, the object being the first; blanks (space, tab, LF, CR) may stand wherever
 * JSON has them, before and after the object too. The value of its member `data` counts, names compared with escapes undone: brackets
 * and values as rma_write_json writes them, with INT as whole numbers without fraction or exponent (-0 is 0). Other members, of any kind
 * and under any names, are skipped. `said`: the number of cells (u32). `cells`: the cells in row-major order, nine bytes each, then what
 * was there; untouched by a refusal.
 * Refused, with place 0, in this order: 1 (another version; a head of other than RMA_HEAD_1 bytes in version 1, RMA_HEAD_2 in version 2;
 * type or axis count), 2 (extent), 7 (FLOAT), all three before the text is looked at; then 15, 16, 14 (`cells` is shorter than nine bytes
 * a cell). The ordinality of 15 and 16 is a byte place in `text`, from 1:
 * - 15: the first byte with which the text no longer begins one such object, whether it has `data` or not; or the quote that opens the
 *   name of a second `data`, where that is lower; one past the end where the text ends early, or where its whole object lacks `data`.
 * - 16: the first byte of the first value or bracket of `data` that does not fit: a closing bracket where more is due, the first byte of
 *   what is too much, of a number out of INT range or not whole, of a value where a bracket is due, or of any other kind of value.
 * A byte place over 4,294,967,295 does not wrap: the ordinality is then 4,294,967,295. The call takes 36,864 bytes of stack for cells
 * that are read before it is known that none is refused, whatever the length of the text. */
uint32_t rma_read_json(uint32_t version, const uint8_t *head, size_t head_len, const uint8_t *text, size_t text_len, uint8_t *cells,
                       size_t cells_len, uint8_t *said, size_t said_len);

/* Plans a recipe over a bundle: nothing is lent, and nothing is run. `said`: T, the number of cells of all results together, then of the
 * last result the type, the axis count and the number of cells (four u32). So a work area of 9T bytes is enough, and a row has 4 and 4
 * times the axis count. Refused as rma_read, 4 with place 0 (recipe length: not 1 to 16 steps of the bundle's version), with the step as
 * place 4, 5, 7, 8 (ordinality: what differs, as above), 6, 9. */
uint32_t rma_plan(const uint8_t *bundle, size_t bundle_len, const uint8_t *recipe, size_t recipe_len, uint8_t *said, size_t said_len);

/* Tells the extent of a recipe's last result. `said`: the head's length (u32), RMA_HEAD_1 or RMA_HEAD_2 by the bundle's version.
 * `extent`: a whole head of that version, as rma_pack takes it: maxima -1,000,000 and 1,000,000, slots past the last axis zeros; then
 * what was there; untouched by a refusal. Refused as rma_plan, then with place 0 14 (`extent` is shorter than the head). */
uint32_t rma_extent(const uint8_t *bundle, size_t bundle_len, const uint8_t *recipe, size_t recipe_len, uint8_t *extent,
                    size_t extent_len, uint8_t *said, size_t said_len);

/* Runs a recipe of 1 to 16 steps over a bundle: 36 bytes each over one of version 1, 100 over one of version 2. `said`: T, the number
 * of cells of all results together (u32).
 * `work`: these cells in step order, 9T bytes, then what was there. Refused as rma_plan, then 10: `work` is untouched. Then 12 or 13, with
 * step and the cell's ordinality: the first 9T bytes of `work` are zeros, the rest is untouched. */
uint32_t rma_run(const uint8_t *bundle, size_t bundle_len, const uint8_t *recipe, size_t recipe_len, uint8_t *work, size_t work_len,
                 uint8_t *said, size_t said_len);

/* Runs a recipe that ends in BOOLEAN and lists the TRUE cells of its last result from ordinality `start` on, until `rows` has no room
 * for another row. `said`: rows written, and where to go on: the ordinality one past the last row's if `rows` filled, else one past
 * the last cell's (two u32). `rows`: for each row the ordinality (u32) and each coordinate (i32), then what was there. `work`: as
 * rma_run leaves it. A page with no row is the end. Refused as rma_run, with 7 at the last step (not BOOLEAN) before 10, and 11 after
 * it (no room for one row; start 0 or over cells + 1), which leaves `work` untouched. A refusal leaves `rows` untouched. */
uint32_t rma_page(const uint8_t *bundle, size_t bundle_len, const uint8_t *recipe, size_t recipe_len, uint8_t *work, size_t work_len,
                  uint32_t start, uint8_t *rows, size_t rows_len, uint8_t *said, size_t said_len);

/* Reads the array that left and right glued along `axis` would be, without building it: the stretch from the cell at `ordinality` up
 * to where the other side begins, or to the end. Both heads are of `version`, 1 or 2. `said`: the side (1 left, 2 right), and from which
 * byte up to which byte of that side's cells (three u32). Cells are not judged, maxima not looked at. Refused 1 with place 0 for another
 * version; then for left (place 1), then right (place 2): 1 (a head of other than RMA_HEAD_1 bytes in version 1, RMA_HEAD_2 in version
 * 2; type or axis count), 2 (extent), 1 (cells not nine bytes each); then with place 0 as a glue: 5, 7, 8 (with a glue's ordinality: 4,
 * or an axis and what differs), 9; then 6 (`ordinality` 0 or past the end). */
uint32_t rma_stretch(uint32_t version, const uint8_t *left_head, size_t left_head_len, const uint8_t *left_cells,
                     size_t left_cells_len, const uint8_t *right_head, size_t right_head_len, const uint8_t *right_cells,
                     size_t right_cells_len, uint32_t axis, uint32_t ordinality, uint8_t *said, size_t said_len);

/* A refusal's number in words, for a person; "done" for 0. Place and ordinality say where: an array, a step or a side, and a cell; with 8
 * the ordinality is 4 for the number of axes, else 10 times the axis index and 1 name, 2 lower limit, 3 upper limit; with 15 and 16 it is
 * a byte of the text. */
static inline const char *rma_words(uint32_t number)
{
    static const char *const words[] = {
        "done",
        "the mark, version, count, type, axis count or number of bytes is bad",
        "the extent is bad: a name, a limit, the declared maximum, or over 4,096 cells",
        "not a cell of the array's type",
        "no such array; or the recipe's length, an operation, an operand or an operator is unknown, or an unused byte is not zero",
        "no such axis, or not one number for each axis",
        "outside the array or beyond its declared maximum",
        "the types do not fit, or what is listed is not BOOLEAN",
        "the two arrays do not agree in axes, names or limits",
        "the result's extent is bad: no axis, a name, a limit, or over 4,096 cells",
        "the work area is under nine bytes for each cell of all results",
        "the row buffer has no room for one row, or the start is outside the listing",
        "the value does not fit",
        "division by zero",
        "the output buffer is too short",
        "the text is not one JSON object, nested to 16 levels at most, with one member data",
        "a value or bracket of the text's data does not fit the array's type and extent",
    };
    return number < sizeof words / sizeof *words ? words[number] : "no such refusal";
}

/* The number in four bytes of an answer, a row or a head. A coordinate is (int32_t)rma_u32(..). */
static inline uint32_t rma_u32(const uint8_t *at)
{
    return (uint32_t)at[0] | (uint32_t)at[1] << 8 | (uint32_t)at[2] << 16 | (uint32_t)at[3] << 24;
}

#ifdef __cplusplus
}
#endif

#endif
