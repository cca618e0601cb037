/* Types the file on standard input and prints, in hexadecimal, a line for each row and one more after a compose; or one line with the number and place of its fault. */
#include <stdio.h>

#include "gelmusko.h"

static void print_frame(const uint8_t *frame)
{
    for (int i = 0; i < 16; i++)
        printf("%02x", frame[i]);
    putchar('\n');
}

int main(void)
{
    static uint8_t text[33793]; /* one byte more than a file may have */
    static uint8_t frames[GELMUSKO_FRAMES_BYTES];
    static uint8_t answers[GELMUSKO_ANSWERS_BYTES];
    uint8_t out[GELMUSKO_OUT_BYTES];
    size_t n = fread(text, 1, sizeof text, stdin);
    if (ferror(stdin)) {
        perror("gelmusko");
        return 2;
    }
    if (gelmusko_type_rows(text, n, 0, 0, frames, sizeof frames, answers, sizeof answers, out, sizeof out) != GELMUSKO_GIVEN) {
        print_frame(out);
        return 1;
    }
    const uint8_t *answer = answers;
    for (const uint8_t *frame = frames; frame < frames + n / 33 * 16; frame += 16) {
        if (frame[0] != 4) /* no row */
            continue;
        print_frame(answer);
        answer += 16;
        if (frame[1] == 5) { /* a compose */
            print_frame(answer);
            answer += 16;
        }
    }
    return 0;
}
