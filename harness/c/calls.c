/*
 * calls FILE.. tries what deskcheck.h says of every call, on session files: a pointer of length 0 may be NULL, calls on different
 * buffers may run at the same time, surfaces have the indices that the header counts, and DESKCHECK_STACK_LEN bytes of stack are
 * enough. Prints a line for each, with the stack that each function takes. Ends with 1 where something is not as the header says.
 */
#define _POSIX_C_SOURCE 200809L
#include <pthread.h>
#include <stdio.h>
#include <stdlib.h>
#include <string.h>

#include "deskcheck.h"

/* Files and threads at most, rounds of each thread, bytes below a frame that are not painted, the paint, and the painted stack. */
enum { MOST_FILES = 256, THREADS = 2, ROUNDS = 10, NOT_USED = 512, PAINT = 0xa5, ROOM = 16 * DESKCHECK_STACK_LEN };

/* A session file. */
struct file {
    uint8_t *bytes;
    size_t length;
};

/* The files that are named. */
static struct file files[MOST_FILES];
static int file_count;

/* What is lent to the calls of one session. */
struct lists {
    uint8_t discards[DESKCHECK_DISCARDS_LEN];
    uint8_t actions[DESKCHECK_ACTIONS_LEN];
    uint8_t clears[DESKCHECK_CLEARS_LEN];
    uint8_t status[DESKCHECK_STATUS_LEN];
};

/* The little-endian number of four bytes. */
static uint32_t number_at(const uint8_t *bytes)
{
    return bytes[0] | (uint32_t)bytes[1] << 8 | (uint32_t)bytes[2] << 16 | (uint32_t)bytes[3] << 24;
}

/* Reads a file that no session is longer than. */
static int load(const char *name, struct file *file)
{
    FILE *from = fopen(name, "rb");
    if (!from)
        return 0;
    file->bytes = malloc(DESKCHECK_LONGEST_SESSION);
    file->length = file->bytes ? fread(file->bytes, 1, DESKCHECK_LONGEST_SESSION, from) : 0;
    fclose(from);
    return file->bytes != NULL;
}

/* Passes of a session, 0 of one that is refused. */
static uint32_t passes_of(const struct file *f)
{
    return deskcheck_session_refusal(f->bytes, f->length) ? 0 : number_at(f->bytes + DESKCHECK_PASS_COUNT_AT);
}

/* Whether a buffer ends with the pass: its field is 1, or it is the last. */
static int ends_buffer(const struct file *f, uint32_t pass, uint32_t passes)
{
    const uint8_t *row = f->bytes + number_at(f->bytes + DESKCHECK_PASS_OFFSET_AT) + (size_t)pass * DESKCHECK_PASS_LEN;
    return number_at(row + DESKCHECK_PASS_ENDS_AT) == 1 || pass + 1 == passes;
}

/* The check of a pass on lists of full size. */
static struct deskcheck_reply check(const struct file *f, uint32_t pass, struct lists *l)
{
    return deskcheck_pass(f->bytes, f->length, pass, l->discards, sizeof l->discards, l->actions, sizeof l->actions,
                          l->clears, sizeof l->clears, l->status, sizeof l->status);
}

/* A submission of them. */
static uint32_t submit(const struct file *f, struct lists *l)
{
    return deskcheck_submit(f->bytes, f->length, l->discards, sizeof l->discards, l->actions, sizeof l->actions,
                            l->clears, sizeof l->clears, l->status, sizeof l->status);
}

/* The index of a surface. */
static struct deskcheck_index place(const struct file *f, uint32_t texture, uint32_t mip, uint32_t layer, uint32_t slice)
{
    return deskcheck_surface_index(f->bytes, f->length, texture, mip, layer, slice);
}

/* ---- NULL with length 0 */

/* Both calls on lent lists with the parts of `none` NULL and of length 0: bit 0 the session, then discards, actions, clears, status. */
static int null_answers(const struct file *f, unsigned none, uint32_t expected)
{
    static struct lists lent, before;
    memset(&lent, 0, sizeof lent);
    before = lent;
    uint8_t *part[] = {f->bytes, lent.discards, lent.actions, lent.clears, lent.status};
    size_t length[] = {f->length, sizeof lent.discards, sizeof lent.actions, sizeof lent.clears, sizeof lent.status};
    for (int i = 0; i < 5; i++)
        if (none >> i & 1) {
            part[i] = NULL;
            length[i] = 0;
        }
    struct deskcheck_reply reply = deskcheck_pass(part[0], length[0], 0, part[1], length[1], part[2], length[2],
                                                  part[3], length[3], part[4], length[4]);
    uint32_t number = deskcheck_submit(part[0], length[0], part[1], length[1], part[2], length[2], part[3], length[3],
                                       part[4], length[4]);
    return reply.number == expected && number == expected && memcmp(&lent, &before, sizeof lent) == 0;
}

/* A session of length 0 is 1, a lent buffer of length 0 is 6 before that, whatever else is NULL. */
static int nulls(const struct file *f)
{
    static uint8_t rows[DESKCHECK_ROWS_LEN];
    int right = deskcheck_session_refusal(NULL, 0) == 1;
    right &= deskcheck_session(NULL, 0, rows, sizeof rows) == 1;
    right &= deskcheck_session(f->bytes, f->length, NULL, 0) == 6;
    right &= deskcheck_session(NULL, 0, NULL, 0) == 6;
    right &= deskcheck_surface_index(NULL, 0, 0, 0, 0, 0).number == 1;
    for (unsigned none = 1; none < 32; none++)
        right &= null_answers(f, none, none == 1 ? 1 : 6);
    return right;
}

/* ---- the index of a surface */

/* Where a texture row has its dimension, its depth or layers, and its mips. */
enum { DIMENSION_AT = 4, DEPTH_AT = 16, MIPS_AT = 20 };

/* A field of a texture row. */
static uint32_t texture_field(const struct file *f, uint32_t texture, size_t at)
{
    return number_at(f->bytes + DESKCHECK_HEADER_LEN + (size_t)texture * DESKCHECK_TEXTURE_LEN + at);
}

/* Whether a surface has this number and index. */
static int told_as(struct deskcheck_index got, uint32_t number, uint32_t index)
{
    return got.number == number && got.index == index;
}

/* The surfaces of a mip have the next indices, slice by slice and layer by layer; behind them there is none. */
static int indices_of_mip(const struct file *f, uint32_t texture, uint32_t mip, uint32_t *next)
{
    uint32_t depth = texture_field(f, texture, DEPTH_AT);
    int volume = texture_field(f, texture, DIMENSION_AT) == 3;
    uint32_t layers = volume ? 1 : depth, slices = volume && depth >> mip ? depth >> mip : 1;
    int right = 1;
    for (uint32_t slice = 0; slice < slices; slice++)
        for (uint32_t layer = 0; layer < layers; layer++)
            right &= told_as(place(f, texture, mip, layer, slice), 0, (*next)++);
    right &= told_as(place(f, texture, mip, layers, 0), 6, 0);
    return right & told_as(place(f, texture, mip, 0, slices), 6, 0);
}

/* The same of every texture of a file; a refused one has its refusal for an answer. */
static int indices(const struct file *f)
{
    uint32_t refusal = deskcheck_session_refusal(f->bytes, f->length);
    if (refusal)
        return told_as(place(f, 0, 0, 0, 0), refusal, 0);
    uint32_t textures = number_at(f->bytes), next = 0;
    int right = told_as(place(f, textures, 0, 0, 0), 6, 0);
    for (uint32_t texture = 0; texture < textures; texture++) {
        uint32_t mips = texture_field(f, texture, MIPS_AT);
        for (uint32_t mip = 0; mip < mips; mip++)
            right &= indices_of_mip(f, texture, mip, &next);
        right &= told_as(place(f, texture, mips, 0, 0), 6, 0);
    }
    return right && next <= DESKCHECK_MOST_SURFACES;
}

/* The same of every file. */
static int all_indices(void)
{
    int right = 1;
    for (int i = 0; i < file_count; i++)
        right &= indices(&files[i]);
    return right;
}

/* ---- several threads */

/* Adds bytes to a sum that tells orders and places apart. */
static uint64_t added(uint64_t sum, const void *bytes, size_t length)
{
    const uint8_t *byte = bytes;
    for (size_t i = 0; i < length; i++)
        sum = (sum ^ byte[i]) * UINT64_C(0x100000001b3);
    return sum;
}

/* Every answer and every lent byte of a session, from fresh lists, as one sum. */
static uint64_t answers(const struct file *f, struct lists *l, uint8_t *rows)
{
    memset(l, 0, sizeof *l);
    memset(rows, 0, DESKCHECK_ROWS_LEN);
    uint32_t passes = passes_of(f);
    uint32_t whole = deskcheck_session(f->bytes, f->length, rows, DESKCHECK_ROWS_LEN);
    uint64_t sum = added(added(UINT64_C(0xcbf29ce484222325), &whole, sizeof whole), rows, DESKCHECK_ROWS_LEN);
    for (uint32_t slice = 0; slice < 2; slice++) {
        struct deskcheck_index index = place(f, 0, 0, 0, slice);
        sum = added(sum, &index, sizeof index);
    }
    for (uint32_t pass = 0; pass < passes; pass++) {
        struct deskcheck_reply reply = check(f, pass, l);
        sum = added(added(sum, &reply, offsetof(struct deskcheck_reply, count) + sizeof reply.count), l, sizeof *l);
        sum = added(sum, reply.attachments, sizeof reply.attachments);
        if (ends_buffer(f, pass, passes)) {
            uint32_t number = submit(f, l);
            sum = added(added(sum, &number, sizeof number), l, sizeof *l);
        }
    }
    return sum;
}

/* A thread's work: all files, from one on, many times. */
struct work {
    int first;
    uint64_t sums[MOST_FILES];
    int same;
    struct lists lists;
    uint8_t rows[DESKCHECK_ROWS_LEN];
};

/* Answers all files in rounds, each round as the first. */
static void *work(void *own)
{
    struct work *w = own;
    w->same = 1;
    for (int round = 0; round < ROUNDS; round++)
        for (int i = 0; i < file_count; i++) {
            int k = (w->first + i) % file_count;
            uint64_t sum = answers(&files[k], &w->lists, w->rows);
            w->same &= round == 0 || w->sums[k] == sum;
            w->sums[k] = sum;
        }
    return NULL;
}

/* Two threads at once answer as one alone. */
static int threads(void)
{
    static struct work alone, both[THREADS];
    pthread_t thread[THREADS];
    work(&alone);
    for (int i = 0; i < THREADS; i++) {
        both[i].first = i * file_count / THREADS;
        if (pthread_create(&thread[i], NULL, work, &both[i]))
            return 0;
    }
    int right = alone.same;
    for (int i = 0; i < THREADS; i++) {
        pthread_join(thread[i], NULL);
        right &= both[i].same && memcmp(both[i].sums, alone.sums, sizeof alone.sums) == 0;
    }
    return right;
}

/* ---- the stack */

/* The painted stack, what each function took of it, and what is lent to the measured calls. */
static _Alignas(64) uint8_t stack[ROOM];
enum { FUNCTIONS = 5 };
static const char *const names[FUNCTIONS] = {"refusal", "pass", "submit", "session", "index"};
static size_t taken[FUNCTIONS];
static struct lists lent;
static uint8_t lent_rows[DESKCHECK_ROWS_LEN];

/* One call of a function, by its number. */
static void call(int function, const struct file *f, uint32_t pass)
{
    switch (function) {
    case 0:
        deskcheck_session_refusal(f->bytes, f->length);
        break;
    case 1: {
        struct deskcheck_reply reply = check(f, pass, &lent);
        (void)reply;
        break;
    }
    case 2:
        submit(f, &lent);
        break;
    case 3:
        deskcheck_session(f->bytes, f->length, lent_rows, sizeof lent_rows);
        break;
    default:
        place(f, 0, 0, 0, 0);
    }
}

/* Paints the stack below this frame, calls, and sees how far down the paint is gone. */
static void measure(int function, const struct file *f, uint32_t pass)
{
    volatile uint8_t here = 0;
    size_t at = (size_t)((uintptr_t)&here - (uintptr_t)stack);
    uint8_t *top = stack + at - NOT_USED;
    for (volatile uint8_t *byte = stack; byte < top; byte++)
        *byte = PAINT;
    call(function, f, pass);
    uint8_t *low = stack;
    while (low < top && *low == PAINT)
        low++;
    size_t depth = at - (size_t)(low - stack);
    if (depth > taken[function])
        taken[function] = depth;
}

/* Every function on every file, on the painted stack. */
static void *measure_all(void *nothing)
{
    for (int i = 0; i < file_count; i++) {
        const struct file *f = &files[i];
        uint32_t passes = passes_of(f);
        memset(&lent, 0, sizeof lent);
        measure(0, f, 0);
        measure(3, f, 0);
        measure(4, f, 0);
        for (uint32_t pass = 0; pass < passes; pass++) {
            measure(1, f, pass);
            if (ends_buffer(f, pass, passes))
                measure(2, f, pass);
        }
    }
    return nothing;
}

/* Runs that on a stack of our own. */
static int stacks(void)
{
    pthread_attr_t attributes;
    pthread_t thread;
    if (pthread_attr_init(&attributes) || pthread_attr_setstack(&attributes, stack, sizeof stack)
        || pthread_create(&thread, &attributes, measure_all, NULL))
        return 0;
    pthread_join(thread, NULL);
    int right = 1;
    printf("stack, bytes:");
    for (int i = 0; i < FUNCTIONS; i++) {
        printf(" %s %zu", names[i], taken[i]);
        right &= taken[i] > 0 && taken[i] <= DESKCHECK_STACK_LEN;
    }
    printf("\n");
    return right;
}

/* Says whether a part is as the header says. */
static int told(const char *what, int right)
{
    printf("%s: %s\n", what, right ? "as said" : "NOT AS SAID");
    return right;
}

int main(int count, char **words)
{
    for (int i = 1; i < count && file_count < MOST_FILES; i++)
        if (!load(words[i], &files[file_count++])) {
            fprintf(stderr, "%s cannot be read\n", words[i]);
            return 2;
        }
    if (file_count == 0 || passes_of(&files[0]) == 0) {
        fprintf(stderr, "calls FILE..: session files, the first one with a pass\n");
        return 2;
    }
    int right = told("NULL of length 0", nulls(&files[0]));
    right &= told("index of a surface", all_indices());
    right &= told("two threads", threads());
    right &= told("stack", stacks());
    return right ? 0 : 1;
}
