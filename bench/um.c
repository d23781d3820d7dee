/*
 * A plain interpreter of the machine of docs/MACHINE.md, with all its tests, to compare times with.
 * It is written for that alone: nothing is proved of it, and no part of the repository rests on it.
 *
 *   um SCROLL      input from standard input, output to standard output
 *
 * It ends with 0 at a Halt, and else with a line on standard error and 4 (a fault), 5 (a limit) or 9 (memory).
 *
 * What may be defined when it is compiled:
 *
 *   PLAIN          it counts no cycles, arrays or words, so that it knows no limit, and a fault's line has no cycle
 *   GOTO           each operator jumps to the next one's by its own (computed gotos, which GCC and Clang have);
 *                  without it one `switch` in a loop goes to each
 */
#include <stdint.h>
#include <stdio.h>
#include <stdlib.h>
#include <string.h>

#define MOST_ARRAYS 16777216u
#define MOST_WORDS 268435456u

struct array {
    uint32_t *words;
    uint32_t length;
    int active;
};

static struct array *arrays;   /* by identifier; array 0 is the program */
static uint32_t made;          /* identifiers ever made */
static uint32_t room;
static uint32_t *returned;     /* identifiers abandoned and not reused, the last on top */
static uint32_t returned_count;

#ifdef PLAIN
#define COUNT(statement)
#define COUNTED(expression)
#else
static uint32_t active_count;  /* active arrays without array 0 */
static uint64_t live_words;    /* words of all active arrays */
static uint64_t cycles;
#define COUNT(statement) statement
#define COUNTED(expression) expression
#endif

static void stop(const char *name, int status)
{
    fflush(stdout);
    fprintf(stderr, "%s", name);
    COUNT(fprintf(stderr, " at cycle %llu", (unsigned long long)(cycles + 1));)
    fprintf(stderr, "\n");
    exit(status);
}

static void *zeroed(size_t words)
{
    void *p = calloc(words ? words : 1, sizeof(uint32_t));
    if (p == NULL)
        stop("Memory", 9);
    return p;
}

static uint32_t allocate(uint32_t size)
{
    uint32_t id;
    COUNT(if (active_count + 1 > MOST_ARRAYS) stop("ArraysFull", 5);)
    COUNT(if (live_words + size > MOST_WORDS) stop("WordsFull", 5);)
    if (returned_count > 0) {
        id = returned[--returned_count];
    } else {
        id = ++made;
        if (id >= room) {
            room *= 2;
            arrays = realloc(arrays, room * sizeof *arrays);
            returned = realloc(returned, room * sizeof *returned);
            if (arrays == NULL || returned == NULL)
                stop("Memory", 9);
        }
    }
    arrays[id].words = zeroed(size);
    arrays[id].length = size;
    arrays[id].active = 1;
    COUNT(active_count++;)
    COUNT(live_words += size;)
    return id;
}

static int is_active(uint32_t id)
{
    return id <= made && arrays[id].active;
}

static void abandon(uint32_t id)
{
    if (id == 0)
        stop("AbandonZero", 4);
    if (!is_active(id))
        stop("AbandonInactive", 4);
    free(arrays[id].words);
    arrays[id].active = 0;
    COUNT(active_count--;)
    COUNT(live_words -= arrays[id].length;)
    returned[returned_count++] = id;
}

static void load(uint32_t id)
{
    struct array copy;
    if (id == 0)
        return;
    if (!is_active(id))
        stop("LoadInactive", 4);
    COUNT(if (live_words - arrays[0].length + arrays[id].length > MOST_WORDS) stop("WordsFull", 5);)
    copy = arrays[id];
    copy.words = malloc(copy.length ? copy.length * sizeof(uint32_t) : 1);
    if (copy.words == NULL)
        stop("Memory", 9);
    memcpy(copy.words, arrays[id].words, copy.length * sizeof(uint32_t));
    COUNT(live_words = live_words - arrays[0].length + copy.length;)
    free(arrays[0].words);
    arrays[0] = copy;
}

/* The word under the finger. */
#define FETCH \
    do { \
        if (finger >= length) \
            stop("FingerOutside", 4); \
        word = code[finger++]; \
    } while (0)

#ifdef GOTO
#define a (&r[word >> 6 & 7])
#define b (&r[word >> 3 & 7])
#define c (&r[word & 7])
#define ROW(number) row_##number
#define OTHER row_14
#define NEXT do { COUNT(cycles++;) FETCH; goto *rows[word >> 28]; } while (0)
#else
#define ROW(number) case number
#define OTHER default
#define NEXT break
#endif

static void run(void)
{
    uint32_t r[8] = {0};
    uint32_t finger = 0;
    uint32_t word;
    const uint32_t *code = arrays[0].words; /* array 0, until a Load */
    uint32_t length = arrays[0].length;
#ifdef GOTO
    static const void *const rows[16] = {
        &&row_0, &&row_1, &&row_2, &&row_3, &&row_4, &&row_5, &&row_6, &&row_7,
        &&row_8, &&row_9, &&row_10, &&row_11, &&row_12, &&row_13, &&row_14, &&row_14,
    };
    FETCH;
    goto *rows[word >> 28];
    {
        {
#else
    for (;; COUNTED(cycles++)) {
        uint32_t *a, *b, *c;
        FETCH;
        a = &r[word >> 6 & 7];
        b = &r[word >> 3 & 7];
        c = &r[word & 7];
        switch (word >> 28) {
#endif
        ROW(0):
            if (*c != 0)
                *a = *b;
            NEXT;
        ROW(1):
            if (!is_active(*b))
                stop("IndexInactive", 4);
            if (*c >= arrays[*b].length)
                stop("IndexOutside", 4);
            *a = arrays[*b].words[*c];
            NEXT;
        ROW(2):
            if (!is_active(*a))
                stop("AmendInactive", 4);
            if (*b >= arrays[*a].length)
                stop("AmendOutside", 4);
            arrays[*a].words[*b] = *c;
            NEXT;
        ROW(3):
            *a = *b + *c;
            NEXT;
        ROW(4):
            *a = *b * *c;
            NEXT;
        ROW(5):
            if (*c == 0)
                stop("DivideByZero", 4);
            *a = *b / *c;
            NEXT;
        ROW(6):
            *a = ~(*b & *c);
            NEXT;
        ROW(7):
            return;
        ROW(8):
            *b = allocate(*c);
            NEXT;
        ROW(9):
            abandon(*c);
            NEXT;
        ROW(10):
            if (*c > 255)
                stop("OutputTooLarge", 4);
            if (putchar((int)*c) == EOF)
                stop("WriteFault", 8);
            NEXT;
        ROW(11): {
            int byte = getchar();
            if (byte == EOF && ferror(stdin))
                stop("ReadFault", 7);
            *c = byte == EOF ? UINT32_MAX : (uint32_t)byte;
            NEXT;
        }
        ROW(12):
            load(*b);
            code = arrays[0].words;
            length = arrays[0].length;
            finger = *c;
            NEXT;
        ROW(13):
            r[word >> 25 & 7] = word & 0x1ffffff;
            NEXT;
        OTHER:
            stop("BadOperator", 4);
        }
    }
}

int main(int count, char **words)
{
    FILE *file;
    unsigned char bytes[4];
    uint32_t most = 1024;
    size_t got;
    if (count != 2) {
        fprintf(stderr, "usage: um SCROLL\n");
        return 2;
    }
    file = fopen(words[1], "rb");
    room = 1024;
    arrays = calloc(room, sizeof *arrays);
    returned = calloc(room, sizeof *returned);
    if (file == NULL || arrays == NULL || returned == NULL)
        return 7;
    arrays[0].active = 1;
    arrays[0].words = zeroed(most);
    while ((got = fread(bytes, 1, 4, file)) == 4) {
        if (arrays[0].length == most) {
            most *= 2;
            arrays[0].words = realloc(arrays[0].words, most * sizeof(uint32_t));
            if (arrays[0].words == NULL)
                return 9;
        }
        arrays[0].words[arrays[0].length++] = (uint32_t)bytes[0] << 24 | (uint32_t)bytes[1] << 16
            | (uint32_t)bytes[2] << 8 | bytes[3];
    }
    fclose(file);
    if (got != 0)
        return 1;
    COUNT(live_words = arrays[0].length;)
    run();
    return fflush(stdout) == 0 ? 0 : 8;
}
