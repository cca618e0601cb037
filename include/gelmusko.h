/* Gelmusko: types of archived shader rows, and the texel of a density. The functions of libgelmusko.a, which
 * `bash bindings/library.sh` writes to target/staticlib (x86-64 Linux).
 *
 * THE FILE. `text` is a whole file: lines of 32 lower-case hexadecimal digits and a line feed, one frame of 16 bytes
 * a line. Any bytes may be handed in; what is no file is refused by its number. docs/RULES.md has the frames and the
 * rules.
 *
 * THE LIMIT. `limit` is the most frames that the file may have, 1 to 1,024. Any other number counts as 1,024, and so
 * does 0. Callers of a header without it hand in 0 after the text's length.
 *
 * THE PASS. `pass` says by which rules Binary rows are typed: 0 is the first pass, by the source's rules, and 1 the
 * second, by WGSL's. Any other number counts as 0. All other rows, and verdicts, keep their rules, over the answers of
 * the pass. Callers of a header without it hand in 0 after the limit.
 *
 * SLICES. Each slice is a pointer and a length in bytes, of a table of counts in counts of 4 bytes each. It must
 * point to that many, aligned as its type is, which the caller may read, and, unless it is const, write. A slice of
 * length 0 is neither read nor written, and its pointer may be null; a null pointer with another length is undefined.
 * Slices that are written (frames, answers, marks, cut, more, joined, out) may not overlap each other, nor any other
 * slice of the call. Const slices (text, left, right, least, greatest, first, second) may overlap each other.
 *
 * BUFFERS. The caller lends them; the library keeps no pointer and no state, allocates nothing, and may be called
 * from several threads with buffers of their own.
 *
 *   frames    16 bytes for each line of the text.                    16,384 bytes are enough for every file.
 *   answers   16 bytes for each row and 16 more for each compose.    32,768 bytes are enough for every file.
 *   out       16 bytes: one frame, what the call hands back.
 *   least, greatest   1,024 counts each, one for each override of the file; those past its overrides are free. A table
 *             of fewer counts is a lent buffer too short. They are only read.
 *   marks     1,024 bytes, one for each row that a file may have. A table of fewer is a lent buffer too short.
 *   cut       33 bytes for each line of the cut.                     33,792 bytes are enough for every file.
 *   more      16 bytes for each line of the second text of a join.   16,384 bytes are enough for every file.
 *   joined    33 bytes for each line of the join.                    33,792 bytes are enough for every join.
 *
 * A longer buffer is as good; its bytes past what is written stay as they were. After numbers 1 to 3 no byte of
 * `frames` and `answers` is changed, but after the 3 of a `cut` that is too short `frames` is as an accepted file
 * leaves it. After numbers 4 to 6 of the file `frames` has the frames of the text at its front, and `answers` is as it
 * was. An accepted file leaves its frames there too. After every number `cut` is as it was, and a table of marks is all
 * 0, unless it or `out` is too short: then it is as it was. Of a join `frames` is as gelmusko_read_file of the first
 * text leaves it, whatever the second text's number or the join's; `more` as gelmusko_read_file of the second leaves it
 * where the first is accepted, and else as it was; and after every number `joined` is as it was.
 *
 * WHAT IS RETURNED: 0 (GELMUSKO_GIVEN) where what was asked for was given, and else a number. The frame in out says
 * the same, with its place:
 *
 *   b0 = 8    a type of the file: its number in b2-3
 *   b0 = 9    a type by value, laid as a type of the file
 *   b0 = 10   a number in b1, its place in b2-3; number 0 where the file is accepted and nothing else is to be said.
 *             For a row's answer 10 to 20, 22, or in the second pass 41, with an index in b4-7 and a flag in b8
 *             For a type's size 42 to 44, with the lowest faulty type as its place; for a range 45 too, with the
 *             lowest override at fault
 *             For a part and a cut 48 too, with place 0; of a cut that is given number 0 has as its place how many
 *             lines it has
 *             For a join 49 too, with place 0, and in b4-7 whose number it is: GELMUSKO_OF_FIRST, GELMUSKO_OF_SECOND
 *             or GELMUSKO_OF_JOIN. Number 0 has as its place how many lines the join has, and 0 in b4-7
 *   b0 = 11   a verdict: 0, 22 or 30 to 33 in b1, its compose row in b2-3, expected or component in b4-7, given in
 *             b8-11
 *   b0 = 12   alignment and size in bytes: 2, 4, 8 or 16 in b4, the size in b8-11
 *   b0 = 13   a range: alignment in b4, least size in b8-11, greatest size in b12-15
 *
 * Numbers of several bytes have their low byte first. An `out` of fewer than 16 bytes is a lent buffer too short: the
 * call returns 1 or 2 if that is the text's, of a join the first text's, and else 3, and changes nothing at all.
 *
 * Numbers of rows and types count from 0. One that the file does not have, whatever its size, is number 6 with place
 * 0, and `answers` stays as it was.
 *
 * A TEXEL. gelmusko_texel asks for no file, and its `out` gets no frame but a texel, of 2 bytes.
 *
 * STACK. GELMUSKO_.._STACK is the stack in bytes that is enough for each function: measured on a painted stack over
 * files that go deep or long, and rounded up (bindings/c/stack.c, which also calls each function in a thread with that
 * much, or 16 KiB, the least that a thread may have). Stack is no part of what is proved.
 *
 * Each function is proved, for all inputs, to return and to leave in each buffer what crates/rule_file/specs says, for
 * sizes crates/rule_file_sizes/specs, for a part and a cut crates/law_cut/specs, for a join crates/law_join/specs, and
 * for a texel crates/texel/specs; it ends, and, given its stack, it never traps. */
#ifndef GELMUSKO_H
#define GELMUSKO_H

#include <stddef.h>
#include <stdint.h>

#ifdef __cplusplus
extern "C" {
#endif

/* sizes that are enough for every file */
#define GELMUSKO_FRAMES_BYTES 16384
#define GELMUSKO_ANSWERS_BYTES 32768
#define GELMUSKO_CUT_BYTES 33792
#define GELMUSKO_JOINED_BYTES 33792
#define GELMUSKO_OUT_BYTES 16
#define GELMUSKO_TEXEL_BYTES 2

/* counts, and marks, of a table */
#define GELMUSKO_COUNTS 1024
#define GELMUSKO_MARKS 1024

/* the most stack that each function takes, in bytes */
#define GELMUSKO_READ_FILE_STACK 2048
#define GELMUSKO_TYPE_ROWS_STACK 8192
#define GELMUSKO_ROW_TYPE_STACK 8192
#define GELMUSKO_COMPOSE_VERDICT_STACK 8192
#define GELMUSKO_SAME_TYPE_STACK 4096
#define GELMUSKO_CANONICAL_FORM_STACK 4096
#define GELMUSKO_POINTER_BASE_STACK 4096
#define GELMUSKO_TYPE_SIZE_STACK 24576
#define GELMUSKO_SIZE_RANGE_STACK 32768
#define GELMUSKO_SMALLEST_PART_STACK 65536
#define GELMUSKO_CUT_TEXT_STACK 81920
#define GELMUSKO_JOIN_FILES_STACK 24576
#define GELMUSKO_TEXEL_STACK 512

/* passes */
#define GELMUSKO_FIRST_PASS 0u
#define GELMUSKO_SECOND_PASS 1u

/* whose number it is, of a join */
#define GELMUSKO_OF_FIRST 0u
#define GELMUSKO_OF_SECOND 1u
#define GELMUSKO_OF_JOIN 2u

/* what is returned */
#define GELMUSKO_GIVEN 0u       /* what was asked for; of a comparison: the same type */
#define GELMUSKO_LONG 1u        /* the text has more than 33 bytes for each frame of the limit; place: the limit
                                   that holds */
#define GELMUSKO_TORN 2u        /* a line is not 32 lower-case digits and a line feed; place: the line, from 0 */
#define GELMUSKO_SHORT 3u       /* a lent buffer is too short; place 0 */
#define GELMUSKO_ORDER 4u       /* a frame of unknown family or item kind, out of order, or a second item of kind 7
                                   or 8; place: the frame */
#define GELMUSKO_FIELD 5u       /* a byte outside its values; place: the frame, or 0 for a frame handed in */
#define GELMUSKO_INDEX 6u       /* a number out of range or not earlier; place: the frame, or 0 for a number or a frame
                                   handed in */
#define GELMUSKO_NEWER 22u      /* something that this reader does not know; place 0. Only of a comparison, a canonical
                                   form or a base */
#define GELMUSKO_RANGE 40u      /* a density over 10,000. Only of gelmusko_texel */
#define GELMUSKO_UNMEASURED 42u /* a type outside the list of types that have a size; place: that type. Only of
                                   gelmusko_type_size and gelmusko_size_range, as 43 and 44 */
#define GELMUSKO_MISPLACED 43u  /* a stride, an offset or a span breaks the rules; place: that type */
#define GELMUSKO_HUGE 44u       /* a size of 2 to the 32 or more; place: that type */
#define GELMUSKO_SPAN 45u       /* a least count of 0 or above its greatest; place: that override. Only of
                                   gelmusko_size_range */
#define GELMUSKO_SOUND 48u      /* the row has a type; place 0. Only of gelmusko_smallest_part and gelmusko_cut_text */
#define GELMUSKO_UNJOINABLE 49u /* a file that may not be joined; place 0. Only of gelmusko_join_files */
#define GELMUSKO_DIFFERENT 256u /* a comparison: not the same type. out: b0 = 10, number 0 */
#define GELMUSKO_NO_POINTER 257u /* a base: the type is no pointer. out: b0 = 10, number 0 */

/* Whether a file is accepted. Returns 0 to 6. out: number 0 to 6. */
uint32_t gelmusko_read_file(const uint8_t *text, size_t text_len, uint32_t limit,
                            uint8_t *frames, size_t frames_len,
                            uint8_t *out, size_t out_len);

/* Types every row and judges every compose. Returns 0 to 6. Of an accepted file `answers` has at its front, for each
 * row in order, its answer (b0 = 8, 9 or 10), and after a compose its verdict (b0 = 11); otherwise `answers` stays as
 * it was. out: number 0 to 6. */
uint32_t gelmusko_type_rows(const uint8_t *text, size_t text_len, uint32_t limit, uint32_t pass,
                            uint8_t *frames, size_t frames_len,
                            uint8_t *answers, size_t answers_len, uint8_t *out, size_t out_len);

/* The answer of one row. Returns 0 also where that answer is a refusal (10 to 20, 41) or 22: it stands in out.
 * Returns 1 to 6 where the file is refused, and 6 where it has no such row. The buffers are left as
 * gelmusko_type_rows leaves them, but `answers` as it was where there is no such row. */
uint32_t gelmusko_row_type(const uint8_t *text, size_t text_len, uint32_t limit, uint32_t pass,
                           uint8_t *frames, size_t frames_len,
                           uint8_t *answers, size_t answers_len, uint32_t row, uint8_t *out, size_t out_len);

/* The verdict on one compose, by its row. Returns 0 also where the verdict is 22 or 30 to 33: it stands in out.
 * Returns 1 to 6 where the file is refused, and 6 where it has no such row, or the row is no compose; `answers` stays
 * as it was then, and is else as gelmusko_type_rows leaves it. */
uint32_t gelmusko_compose_verdict(const uint8_t *text, size_t text_len, uint32_t limit, uint32_t pass,
                                  uint8_t *frames, size_t frames_len,
                                  uint8_t *answers, size_t answers_len, uint32_t row,
                                  uint8_t *out, size_t out_len);

/* Whether two types of a file are the same. `left` and `right` are frames of 16 bytes, b0 = 8 or 9, as they are handed
 * back. Returns 0 where they are, 256 where not, 22, 1 to 6 where the file is refused, 5 where a frame has another
 * length than 16, is no type number or value, or has a bad byte, and 6 where it names what the file does not have; the
 * left frame's 5 or 6 comes before the right one's. out: number 0 to 6 or 22. */
uint32_t gelmusko_same_type(const uint8_t *text, size_t text_len, uint32_t limit,
                            uint8_t *frames, size_t frames_len,
                            const uint8_t *left, size_t left_len, const uint8_t *right, size_t right_len,
                            uint8_t *out, size_t out_len);

/* The canonical form of type n: of a pointer to a scalar or a vector the value pointer (b0 = 9), of any other type its
 * own number (b0 = 8). Returns 0 to 6 or 22. */
uint32_t gelmusko_canonical_form(const uint8_t *text, size_t text_len, uint32_t limit,
                                 uint8_t *frames, size_t frames_len,
                                 uint32_t n, uint8_t *out, size_t out_len);

/* The base of type n: of a pointer its base's number (b0 = 8), of a value pointer the scalar or vector by value
 * (b0 = 9). Returns 0 to 6, 22, or 257 where type n is no pointer. */
uint32_t gelmusko_pointer_base(const uint8_t *text, size_t text_len, uint32_t limit,
                               uint8_t *frames, size_t frames_len,
                               uint32_t n, uint8_t *out, size_t out_len);

/* Alignment and size in bytes of type n, by WGSL's memory layout (b0 = 12). Returns 0 to 6, or 42, 43 or 44 with the
 * lowest faulty type, of those that the size rests on, as its place. */
uint32_t gelmusko_type_size(const uint8_t *text, size_t text_len, uint32_t limit,
                            uint8_t *frames, size_t frames_len,
                            uint32_t n, uint8_t *out, size_t out_len);

/* Alignment, least and greatest size in bytes of type n (b0 = 13), where the count of a pending array of override o is
 * any from least[o] to greatest[o]. Returns 0 to 6; 45 with the lowest override of the file whose least count is 0 or
 * above its greatest as its place; or 42, 43 or 44 with the lowest faulty type, at the greatest counts. */
uint32_t gelmusko_size_range(const uint8_t *text, size_t text_len, uint32_t limit,
                             uint8_t *frames, size_t frames_len,
                             const uint32_t *least, size_t least_len, const uint32_t *greatest, size_t greatest_len,
                             uint32_t n, uint8_t *out, size_t out_len);

/* The smallest part of a file that shows why a row has no type: the rows that its reading follows, by the rules of the
 * first pass. Returns 0 where the row's answer is a refusal (10 to 20) or 22; of the first 1,024 bytes of `marks` those
 * of these rows are 1 then, and all others 0. Returns 1 to 6 where the file is refused, 6 where it has no such row, and
 * 48 where the row has a type; these bytes are all 0 then. A `marks` of fewer bytes is a lent buffer too short: the
 * call returns 1 or 2 if that is the text's, and else 3, and changes nothing but out. out: number 0 to 6 or 48. */
uint32_t gelmusko_smallest_part(const uint8_t *text, size_t text_len, uint32_t limit,
                                uint8_t *frames, size_t frames_len,
                                uint32_t row, uint8_t *marks, size_t marks_len, uint8_t *out, size_t out_len);

/* The lines of the file cut to these rows: all its types, members and items, and the marked rows in their order,
 * renumbered; no components, and a compose has none. A row that is named and not marked becomes row 0. The cut is
 * accepted, has no more lines than the text, and its last row has the answer of the row asked for, with places that are
 * rows renumbered. Returns 0, and the lines stand at the front of `cut`; their number is the place of number 0 in out.
 * Returns 1 to 6 where the file is refused, 6 where it has no such row, 48 where the row has a type, and last of all 3
 * where `cut` is too short; `cut` stays as it was then. out: number 0 to 6 or 48. */
uint32_t gelmusko_cut_text(const uint8_t *text, size_t text_len, uint32_t limit,
                           uint8_t *frames, size_t frames_len,
                           uint32_t row, uint8_t *cut, size_t cut_len, uint8_t *out, size_t out_len);

/* The lines of two files in one: families and item kinds in order, in each the first file's frames as they are, then
 * the second's with their numbers, and argument indices, moved past the first's. No type is shared. The join is
 * accepted, and its rows answer as they did alone, with numbers moved. `limit` serves the two files and the join.
 * Returns 0, and the lines stand at the front of `joined`; their number is the place of number 0 in out. Returns 1 to 6
 * where the first file is refused, else where the second is; else 49 where either has a type or row of unknown kind, a
 * Math row, an item of kind 7 or 8, or a row answered 19 or 20; else 1 where the join has more frames than the limit;
 * else 3 where `joined` is too short. out: number 0 to 6 or 49, and whose it is. */
uint32_t gelmusko_join_files(const uint8_t *first, size_t first_len, const uint8_t *second, size_t second_len,
                             uint32_t limit, uint8_t *frames, size_t frames_len, uint8_t *more, size_t more_len,
                             uint8_t *joined, size_t joined_len, uint8_t *out, size_t out_len);

/* The R16Unorm texel of a density in hundredths of a per cent, 0 to 10,000: density times 65,535 divided by 10,000,
 * rounded to the nearest whole number, a half to the even one. Returns 0, and the first two bytes of out are the
 * texel, low byte first; or 3 where out has fewer than 2 bytes, else 40 where the density is over 10,000, and no
 * byte of out is changed. */
uint32_t gelmusko_texel(uint32_t density, uint8_t *out, size_t out_len);

#ifdef __cplusplus
}
#endif

#endif
