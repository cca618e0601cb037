/* Calls every function once, on an empty file with null pointers of length 0 and on files of one type and of three rows, and checks the numbers. Prints nothing if all are right. */
#include <stdio.h>
#include <string.h>

#include "gelmusko.h"

static int wrong;

static void expect(const char *what, uint32_t got, uint32_t want)
{
    if (got != want) {
        printf("%s: %u, and not %u\n", what, (unsigned)got, (unsigned)want);
        wrong = 1;
    }
}

int main(void)
{
    uint8_t out[16], frames[16], answers[16], before[16];
    static const uint32_t counts[GELMUSKO_COUNTS];
    static uint8_t marks[GELMUSKO_MARKS + 1], cut[GELMUSKO_CUT_BYTES], rows_frames[48];
    size_t i, marked;
    memset(out, 7, 16);
    memcpy(before, out, 16);

    /* an empty file asks for no bytes of frames and answers */
    expect("read_file", gelmusko_read_file(NULL, 0, 0, NULL, 0, out, 16), GELMUSKO_GIVEN);
    expect("frame of number 0", out[0] * 256u + out[1], 10 * 256);
    expect("type_rows", gelmusko_type_rows(NULL, 0, 0, 0, NULL, 0, NULL, 0, out, 16), GELMUSKO_GIVEN);
    expect("row_type", gelmusko_row_type(NULL, 0, 0, 1, NULL, 0, NULL, 0, 0, out, 16), GELMUSKO_INDEX);
    expect("compose_verdict", gelmusko_compose_verdict(NULL, 0, 0, 2, NULL, 0, NULL, 0, 65536, out, 16), GELMUSKO_INDEX);
    expect("same_type", gelmusko_same_type(NULL, 0, 0, NULL, 0, NULL, 0, NULL, 0, out, 16), GELMUSKO_FIELD);
    expect("canonical_form", gelmusko_canonical_form(NULL, 0, 0, NULL, 0, 0, out, 16), GELMUSKO_INDEX);
    expect("pointer_base", gelmusko_pointer_base(NULL, 0, 0, NULL, 0, 0, out, 16), GELMUSKO_INDEX);
    expect("type_size", gelmusko_type_size(NULL, 0, 0, NULL, 0, 0, out, 16), GELMUSKO_INDEX);
    expect("size_range, no tables", gelmusko_size_range(NULL, 0, 0, NULL, 0, NULL, 0, NULL, 0, 0, out, 16),
           GELMUSKO_SHORT);
    expect("size_range", gelmusko_size_range(NULL, 0, 0, NULL, 0, counts, 1024, counts, 1024, 0, out, 16),
           GELMUSKO_INDEX);
    memset(marks, 7, sizeof marks);
    expect("smallest_part, no marks", gelmusko_smallest_part(NULL, 0, 0, NULL, 0, 0, NULL, 0, out, 16), GELMUSKO_SHORT);
    expect("smallest_part", gelmusko_smallest_part(NULL, 0, 0, NULL, 0, 0, marks, GELMUSKO_MARKS, out, 16),
           GELMUSKO_INDEX);
    for (i = marked = 0; i < GELMUSKO_MARKS; i++) marked += marks[i] != 0;
    expect("no mark", (uint32_t)marked, 0);
    expect("the byte after them", marks[GELMUSKO_MARKS], 7);
    expect("cut_text", gelmusko_cut_text(NULL, 0, 0, NULL, 0, 0, NULL, 0, out, 16), GELMUSKO_INDEX);
    expect("frame of number 6", out[0] * 256u + out[1], 10 * 256 + 6);
    expect("join_files", gelmusko_join_files(NULL, 0, NULL, 0, 0, NULL, 0, NULL, 0, NULL, 0, out, 16), GELMUSKO_GIVEN);
    expect("frame of no lines", out[0] * 65536u + out[1] * 256u + out[2], 10 * 65536);

    /* no out, or one that is too short */
    memcpy(out, before, 16);
    expect("no out", gelmusko_read_file(NULL, 0, 0, NULL, 0, NULL, 0), GELMUSKO_SHORT);
    expect("short out", gelmusko_read_file(NULL, 0, 0, NULL, 0, out, 15), GELMUSKO_SHORT);
    expect("out unchanged", memcmp(out, before, 16) != 0, 0);

    /* f32 as type 0 */
    const uint8_t *text = (const uint8_t *)"01010000020400000000000000000000\n";
    uint8_t number[16] = {8}, value[16] = {9, 1, 0, 0, 2, 4}, other[16] = {9, 1, 0, 0, 2, 8};
    expect("one type",
           gelmusko_type_rows(text, 33, 0, GELMUSKO_FIRST_PASS, frames, 16, answers, 16, out, 16), GELMUSKO_GIVEN);
    expect("within one frame",
           gelmusko_type_rows(text, 33, 1, GELMUSKO_SECOND_PASS, frames, 16, answers, 16, out, 16), GELMUSKO_GIVEN);
    expect("over one frame",
           gelmusko_type_rows(text, 34, 1, GELMUSKO_SECOND_PASS, frames, 16, answers, 16, out, 16), GELMUSKO_LONG);
    expect("its place", out[2] + 256u * out[3], 1);
    expect("short frames",
           gelmusko_type_rows(text, 33, 0, GELMUSKO_FIRST_PASS, frames, 15, answers, 16, out, 16), GELMUSKO_SHORT);
    expect("the same type", gelmusko_same_type(text, 33, 0, frames, 16, number, 16, value, 16, out, 16), GELMUSKO_GIVEN);
    expect("another type", gelmusko_same_type(text, 33, 0, frames, 16, number, 16, other, 16, out, 16), GELMUSKO_DIFFERENT);
    expect("its own canonical form", gelmusko_canonical_form(text, 33, 0, frames, 16, 0, out, 16), GELMUSKO_GIVEN);
    expect("frame of type 0", memcmp(out, number, 16) != 0, 0);
    expect("no pointer", gelmusko_pointer_base(text, 33, 0, frames, 16, 0, out, 16), GELMUSKO_NO_POINTER);
    expect("f32 fills 4 bytes", gelmusko_type_size(text, 33, 0, frames, 16, 0, out, 16), GELMUSKO_GIVEN);
    expect("its frame", out[0] * 65536u + out[4] * 256u + out[8], 12 * 65536 + 4 * 256 + 4);
    expect("at any counts", gelmusko_size_range(text, 33, 0, frames, 16, counts, 1024, counts, 1024, 0, out, 16),
           GELMUSKO_GIVEN);
    expect("its frame", out[0] * 65536u + out[8] * 256u + out[12], 13 * 65536 + 4 * 256 + 4);
    expect("65,536 is no type", gelmusko_pointer_base(text, 33, 0, frames, 16, 65536, out, 16), GELMUSKO_INDEX);

    /* a literal, a row of unknown kind, and one that reads it: the last is newer, and the first no part of it */
    static const char rows[] = "04010000000001000000000000000000\n"
                               "04ff0000000000000000000000000000\n"
                               "04110100000000000000000000000000\n";
    static const char part[] = "04ff0000000000000000000000000000\n"
                               "04110000000000000000000000000000\n";
    text = (const uint8_t *)rows;
    memset(marks, 7, sizeof marks);
    expect("a part",
           gelmusko_smallest_part(text, 99, 0, rows_frames, 48, 2, marks, sizeof marks, out, 16), GELMUSKO_GIVEN);
    for (i = marked = 0; i < GELMUSKO_MARKS; i++) marked += marks[i] != 0;
    expect("two marks", (uint32_t)marked, 2);
    expect("rows 1 and 2", marks[1] == 1 && marks[2] == 1, 1);
    expect("the byte after them", marks[GELMUSKO_MARKS], 7);
    expect("a row with a type",
           gelmusko_smallest_part(text, 99, 0, rows_frames, 48, 0, marks, GELMUSKO_MARKS, out, 16), GELMUSKO_SOUND);
    for (i = marked = 0; i < GELMUSKO_MARKS; i++) marked += marks[i] != 0;
    expect("no mark with number 48", (uint32_t)marked, 0);
    memset(cut, 7, sizeof cut);
    expect("no room for a cut", gelmusko_cut_text(text, 99, 0, rows_frames, 48, 2, cut, 65, out, 16), GELMUSKO_SHORT);
    for (i = marked = 0; i < sizeof cut; i++) marked += cut[i] != 7;
    expect("cut unchanged", (uint32_t)marked, 0);
    expect("a cut", gelmusko_cut_text(text, 99, 0, rows_frames, 48, 2, cut, sizeof cut, out, 16), GELMUSKO_GIVEN);
    expect("its lines", out[0] * 65536u + out[1] * 256u + out[2], 10 * 65536 + 2);
    expect("its bytes", memcmp(cut, part, 66) != 0, 0);
    expect("the byte after it", cut[66], 7);
    expect("no cut, a type", gelmusko_cut_text(text, 99, 0, rows_frames, 48, 0, NULL, 0, out, 16), GELMUSKO_SOUND);
    expect("no cut, no row", gelmusko_cut_text(text, 99, 0, rows_frames, 48, 3, NULL, 0, out, 16), GELMUSKO_INDEX);

    /* f32 and a value of it, joined with itself; the two texts are the same bytes */
    static const char alone[] = "01010000020400000000000000000000\n"
                                "04040000000000000000000000000000\n";
    static const char both[] = "01010000020400000000000000000000\n"
                               "01010000020400000000000000000000\n"
                               "04040000000000000000000000000000\n"
                               "04040100000000000000000000000000\n";
    static uint8_t joined[GELMUSKO_JOINED_BYTES], more[48];
    const uint8_t *one = (const uint8_t *)alone;
    memset(joined, 7, sizeof joined);
    memcpy(out, before, 16);
    expect("a join, no out", gelmusko_join_files(one, 66, one, 66, 0, frames, 16, more, 48, joined, 132, out, 15),
           GELMUSKO_SHORT);
    expect("out unchanged by a join", memcmp(out, before, 16) != 0, 0);
    expect("short frames of the first",
           gelmusko_join_files(one, 66, one, 65, 0, frames, 16, more, 48, joined, 132, out, 16), GELMUSKO_SHORT);
    expect("it is the first's", out[4], GELMUSKO_OF_FIRST);
    expect("a torn second",
           gelmusko_join_files(one, 66, one, 65, 0, rows_frames, 48, more, 48, joined, 132, out, 16), GELMUSKO_TORN);
    expect("it is the second's", out[4], GELMUSKO_OF_SECOND);
    expect("unjoinable",
           gelmusko_join_files(one, 66, text, 99, 3, rows_frames, 48, more, 48, joined, 0, out, 16),
           GELMUSKO_UNJOINABLE);
    expect("it is the join's", out[4], GELMUSKO_OF_JOIN);
    expect("over the limit",
           gelmusko_join_files(one, 66, one, 66, 3, rows_frames, 48, more, 48, joined, 0, out, 16), GELMUSKO_LONG);
    expect("its limit", out[2] * 256u + out[4], 3 * 256 + GELMUSKO_OF_JOIN);
    expect("no room for a join",
           gelmusko_join_files(one, 66, one, 66, 4, rows_frames, 48, more, 48, joined, 131, out, 16), GELMUSKO_SHORT);
    for (i = marked = 0; i < sizeof joined; i++) marked += joined[i] != 7;
    expect("joined unchanged", (uint32_t)marked, 0);
    expect("a join",
           gelmusko_join_files(one, 66, one, 66, 4, rows_frames, 48, more, 48, joined, sizeof joined, out, 16),
           GELMUSKO_GIVEN);
    expect("its lines", out[0] * 65536u + out[1] * 256u + out[2], 10 * 65536 + 4);
    expect("its bytes", memcmp(joined, both, 132) != 0, 0);
    expect("the byte after it", joined[132], 7);

    /* a texel has two bytes, low byte first */
    memcpy(out, before, 16);
    expect("texel", gelmusko_texel(1000, out, 2), GELMUSKO_GIVEN);
    expect("its bytes", out[0] + 256u * out[1], 6554);
    expect("the byte after it", out[2], before[2]);
    memcpy(out, before, 16);
    expect("no room for a texel", gelmusko_texel(10001, out, 1), GELMUSKO_SHORT);
    expect("no texel, no out", gelmusko_texel(0, NULL, 0), GELMUSKO_SHORT);
    expect("over 10,000", gelmusko_texel(10001, out, 16), GELMUSKO_RANGE);
    expect("out unchanged by a texel", memcmp(out, before, 16) != 0, 0);
    return wrong;
}
