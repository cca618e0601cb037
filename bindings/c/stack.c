/* How much stack each exported function takes, measured on a painted stack over files that go deep or long, held to the
 * figures of the header; then each is called in a thread that has just that much, or 16 KiB, the least that a thread
 * may have. */
#define _GNU_SOURCE
#include <pthread.h>
#include <stdio.h>
#include <stdlib.h>
#include <string.h>
#include <sys/mman.h>
#include "gelmusko.h"

#define PAINT 0xa5
#define ROOM (2u << 20)
#define PAGE 4096u

static uint8_t text[33 * 1024 + 1], frames[GELMUSKO_FRAMES_BYTES], answers[GELMUSKO_ANSWERS_BYTES];
static uint8_t marks[GELMUSKO_MARKS], cut[GELMUSKO_CUT_BYTES];
static uint8_t more[GELMUSKO_FRAMES_BYTES], joined[GELMUSKO_JOINED_BYTES];
static uint32_t least[GELMUSKO_COUNTS], greatest[GELMUSKO_COUNTS];
static size_t text_len;
static uint32_t asked, pass_asked, row_asked;

/* a frame as a line of the text */
static void frame(const uint8_t *b)
{
    static const char digits[] = "0123456789abcdef";
    int i;
    for (i = 0; i < 16; i++) {
        text[text_len++] = (uint8_t)digits[b[i] / 16];
        text[text_len++] = (uint8_t)digits[b[i] % 16];
    }
    text[text_len++] = '\n';
}

static void f32(void)
{
    static const uint8_t b[16] = { 1, 1, 0, 0, 2, 4 };
    text_len = 0;
    frame(b);
}

/* 1,023 arrays, each over the one before it: of one element, of an override's count where it is the first */
static void arrays(int pending)
{
    int i;
    f32();
    for (i = 0; i < 1023 - pending; i++) {
        uint8_t b[16] = { 1, 8 };
        b[2] = (uint8_t)(i % 256);
        b[3] = (uint8_t)(i / 256);
        b[4] = (uint8_t)(pending && i == 0);
        b[8] = (uint8_t)(b[4] ? 0 : 1);
        b[12] = 4;
        frame(b);
    }
    if (pending) {
        static const uint8_t b[16] = { 3, 2 };
        frame(b);
    }
    asked = (uint32_t)(1023 - pending);
}

/* 511 structs, each with the one before it as its member; with a pending array below them where that is asked for */
static void structs(int pending)
{
    int i, first = 1 + pending;
    f32();
    if (pending) {
        static const uint8_t b[16] = { 1, 8, 0, 0, 1, 0, 0, 0, 0, 0, 0, 0, 4 };
        frame(b);
    }
    for (i = 0; i < 510; i++) {
        uint8_t b[16] = { 1, 9 };
        b[2] = (uint8_t)(i % 256);
        b[3] = (uint8_t)(i / 256);
        b[4] = 1;
        b[12] = 4;
        frame(b);
    }
    for (i = 0; i < 510; i++) {
        uint8_t b[16] = { 2, 0 };
        int base = first - 1 + i;
        b[2] = (uint8_t)(base % 256);
        b[3] = (uint8_t)(base / 256);
        frame(b);
    }
    if (pending) {
        static const uint8_t b[16] = { 3, 2 };
        frame(b);
    }
    asked = (uint32_t)(first + 509);
}

/* 1,024 rows, each reading the one before it twice: the first is a value, or newer where that is asked for */
static void rows(int newer)
{
    static const uint8_t literal[16] = { 4, 1, 0, 0, 0, 0, 1 }, math[16] = { 4, 22 };
    int i;
    text_len = 0;
    frame(newer ? math : literal);
    for (i = 0; i < 1023; i++) {
        uint8_t b[16] = { 4, 18 };
        b[2] = b[4] = (uint8_t)(i % 256);
        b[3] = b[5] = (uint8_t)(i / 256);
        b[6] = 2;
        frame(b);
    }
    asked = 0;
    row_asked = 1023;
}

/* rows of every kind, from a file */
static void stored(const char *path)
{
    FILE *f = fopen(path, "rb");
    if (!f) { perror(path); exit(1); }
    text_len = fread(text, 1, sizeof text, f);
    fclose(f);
    asked = 0;
}

static uint8_t out[GELMUSKO_OUT_BYTES];
static const uint8_t number[16] = { 8 };

static void nothing(void) { out[0] = 0; }
static void read_file(void) { gelmusko_read_file(text, text_len, 0, frames, sizeof frames, out, sizeof out); }
static void type_rows(void)
{
    gelmusko_type_rows(text, text_len, 0, pass_asked, frames, sizeof frames, answers, sizeof answers, out, sizeof out);
}
static void row_type(void)
{
    gelmusko_row_type(text, text_len, 0, pass_asked, frames, sizeof frames, answers, sizeof answers, row_asked, out,
                      sizeof out);
}
static void compose_verdict(void)
{
    gelmusko_compose_verdict(text, text_len, 0, pass_asked, frames, sizeof frames, answers, sizeof answers, row_asked,
                             out, sizeof out);
}
static void same_type(void)
{
    uint8_t right[16] = { 8 };
    right[2] = (uint8_t)(asked % 256);
    right[3] = (uint8_t)(asked / 256);
    gelmusko_same_type(text, text_len, 0, frames, sizeof frames, number, 16, right, 16, out, sizeof out);
}
static void canonical_form(void)
{
    gelmusko_canonical_form(text, text_len, 0, frames, sizeof frames, asked, out, sizeof out);
}
static void pointer_base(void)
{
    gelmusko_pointer_base(text, text_len, 0, frames, sizeof frames, asked, out, sizeof out);
}
static void type_size(void)
{
    gelmusko_type_size(text, text_len, 0, frames, sizeof frames, asked, out, sizeof out);
}
static void size_range(void)
{
    gelmusko_size_range(text, text_len, 0, frames, sizeof frames, least, GELMUSKO_COUNTS, greatest, GELMUSKO_COUNTS,
                        asked, out, sizeof out);
}
static void smallest_part(void)
{
    gelmusko_smallest_part(text, text_len, 0, frames, sizeof frames, row_asked, marks, sizeof marks, out, sizeof out);
}
static void cut_text(void)
{
    gelmusko_cut_text(text, text_len, 0, frames, sizeof frames, row_asked, cut, sizeof cut, out, sizeof out);
}
/* the file with an empty one, so that the longest is joined too; then with itself */
static void join_files(void)
{
    gelmusko_join_files(text, text_len, NULL, 0, 0, frames, sizeof frames, more, sizeof more, joined, sizeof joined, out,
                        sizeof out);
    gelmusko_join_files(NULL, 0, text, text_len, 0, frames, sizeof frames, more, sizeof more, joined, sizeof joined, out,
                        sizeof out);
    gelmusko_join_files(text, text_len, text, text_len, 0, frames, sizeof frames, more, sizeof more, joined,
                        sizeof joined, out, sizeof out);
}
static void texel(void) { gelmusko_texel(3000, out, sizeof out); }

static const struct {
    const char *name;
    void (*call)(void);
    size_t most;
} functions[] = {
    { "gelmusko_read_file", read_file, GELMUSKO_READ_FILE_STACK },
    { "gelmusko_type_rows", type_rows, GELMUSKO_TYPE_ROWS_STACK },
    { "gelmusko_row_type", row_type, GELMUSKO_ROW_TYPE_STACK },
    { "gelmusko_compose_verdict", compose_verdict, GELMUSKO_COMPOSE_VERDICT_STACK },
    { "gelmusko_same_type", same_type, GELMUSKO_SAME_TYPE_STACK },
    { "gelmusko_canonical_form", canonical_form, GELMUSKO_CANONICAL_FORM_STACK },
    { "gelmusko_pointer_base", pointer_base, GELMUSKO_POINTER_BASE_STACK },
    { "gelmusko_type_size", type_size, GELMUSKO_TYPE_SIZE_STACK },
    { "gelmusko_size_range", size_range, GELMUSKO_SIZE_RANGE_STACK },
    { "gelmusko_smallest_part", smallest_part, GELMUSKO_SMALLEST_PART_STACK },
    { "gelmusko_cut_text", cut_text, GELMUSKO_CUT_TEXT_STACK },
    { "gelmusko_join_files", join_files, GELMUSKO_JOIN_FILES_STACK },
    { "gelmusko_texel", texel, GELMUSKO_TEXEL_STACK },
};
#define FUNCTIONS (sizeof functions / sizeof *functions)

static void *run(void *call)
{
    (*(void (**)(void))call)();
    return NULL;
}

/* the bytes that a thread touches of a stack of `size` bytes, below which a page may not be touched */
static size_t touched(void (*call)(void), size_t size)
{
    uint8_t *room = mmap(NULL, size + PAGE, PROT_READ | PROT_WRITE, MAP_PRIVATE | MAP_ANONYMOUS, -1, 0);
    pthread_attr_t attr;
    pthread_t thread;
    size_t i;
    if (room == MAP_FAILED || mprotect(room, PAGE, PROT_NONE)) { perror("mmap"); exit(1); }
    memset(room + PAGE, PAINT, size);
    pthread_attr_init(&attr);
    if (pthread_attr_setstack(&attr, room + PAGE, size) || pthread_create(&thread, &attr, run, &call)) {
        fprintf(stderr, "no thread with %zu bytes of stack\n", size);
        exit(1);
    }
    pthread_join(thread, NULL);
    pthread_attr_destroy(&attr);
    for (i = 0; i < size && room[PAGE + i] == PAINT; i++) {}
    munmap(room, size + PAGE);
    return size - i;
}

static size_t most[FUNCTIONS], own;
static int narrow;

/* every function on the present file */
static void each(void)
{
    size_t i;
    for (i = 0; i < FUNCTIONS; i++) {
        size_t n;
        if (narrow) {
            size_t size = (functions[i].most + own + PAGE - 1) / PAGE * PAGE;
            touched(functions[i].call, size < 16384 ? 16384 : size);
            continue;
        }
        n = touched(functions[i].call, ROOM);
        n = n > own ? n - own : 0;
        if (n > most[i]) most[i] = n;
    }
}

static void files(int count, char **paths)
{
    int i, p;
    for (p = 0; p < 2; p++) {
        pass_asked = (uint32_t)p;
        for (i = 0; i < 2; i++) {
            arrays(i); each();
            structs(i); each();
            rows(i); each();
        }
        for (i = 0; i < count; i++) {
            stored(paths[i]);
            for (row_asked = 0; row_asked < 40; row_asked++) each();
        }
    }
}

int main(int argc, char **argv)
{
    size_t i;
    int bad = 0;
    for (i = 0; i < GELMUSKO_COUNTS; i++) { least[i] = 1; greatest[i] = 3; }
    own = touched(nothing, ROOM);
    files(argc - 1, argv + 1);
    for (i = 0; i < FUNCTIONS; i++) {
        printf("%-26s %6zu of %zu\n", functions[i].name, most[i], functions[i].most);
        if (most[i] > functions[i].most) bad = 1;
    }
    if (bad) { printf("stack: more than the header says\n"); return 1; }
    narrow = 1;
    files(argc - 1, argv + 1);
    printf("stack: ok\n");
    return 0;
}
