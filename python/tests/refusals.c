/*
 * Calls each function of seedpaint.h with no growth of memory refused, and then with each one in turn; and so a view
 * and a merge that are refused. After each call all memory has to be given back. The answer is that of want of memory,
 * and what the caller lent is as it was, without the line of a refusal; or the call went on with less memory, and left
 * there what it leaves with none refused.
 *
 * tools/build_python.sh --test links it, with malloc, realloc and free wrapped, and runs it by itself, under the
 * address sanitizer and under valgrind. It ends with 0 and a line for each function, or with 1 and another line at the
 * first thing that is wrong.
 */
#include "seedpaint.h"

#include <stdio.h>
#include <stdlib.h>
#include <string.h>

/* ---- Memory ---- */

void *__real_malloc(size_t bytes);
void *__real_realloc(void *block, size_t bytes);
void __real_free(void *block);

static long growths, refused, live, went_on;
static int counting;

static int is_refused(void) { return counting && ++growths == refused; }

void *__wrap_malloc(size_t bytes) {
    void *block = is_refused() ? NULL : __real_malloc(bytes);
    if (counting && block) live++;
    return block;
}

void *__wrap_realloc(void *block, size_t bytes) {
    void *other = is_refused() ? NULL : __real_realloc(block, bytes);
    if (counting && !block && other) live++;
    return other;
}

void __wrap_free(void *block) {
    if (counting && block) live--;
    __real_free(block);
}

/* ---- Calls ---- */

enum { W = 40, H = 70, CELLS = W * H, BYTES = 8000, PRINT_AT = 7 }; /* (of a state file's first fingerprint) */

/* What a caller lends to be written. */
struct lent {
    uint16_t image[CELLS];
    uint8_t out[BYTES], state[BYTES];
};

static struct lent lent, before;
static uint16_t mask[CELLS];
static uint8_t input[BYTES], old[BYTES], print[32], other_print[32], fault[SEEDPAINT_FAULT_BYTES];
static size_t input_bytes, edits_bytes, old_bytes;
static struct seedpaint_lengths lengths;

static uint32_t grow(void) { return seedpaint_grow(mask, CELLS, lent.image, CELLS, W, H, 4); }
static uint32_t fill(void) { return seedpaint_fill(lent.image, CELLS, W, H, 8); }
static uint32_t hmax(void) { return seedpaint_hmax(lent.image, CELLS, W, H, 3, 4); }
static uint32_t regmax(void) { return seedpaint_regmax(lent.image, CELLS, W, H, 8); }
static uint32_t view(void) {
    return seedpaint_view(input, input_bytes, 4, lent.out, BYTES, fault, sizeof fault, &lengths);
}
static uint32_t view_kept(void) {
    return seedpaint_view_kept(input, input_bytes, old, old_bytes, 4, lent.out, BYTES, lent.state, BYTES, fault,
                               sizeof fault, &lengths);
}
static uint32_t merge(void) {
    return seedpaint_merge(input, edits_bytes, old, old_bytes, print, 32, W, H, 4, lent.state, BYTES, fault,
                           sizeof fault, &lengths);
}

/* An input that ends before its line `image`, and old bytes that are for another mask. */
static uint32_t view_refused(void) {
    return seedpaint_view(input, edits_bytes, 4, lent.out, BYTES, fault, sizeof fault, &lengths);
}
static uint32_t merge_refused(void) {
    return seedpaint_merge(input, edits_bytes, old, old_bytes, other_print, 32, W, H, 4, lent.state, BYTES, fault,
                           sizeof fault, &lengths);
}

static const struct call {
    const char *name;
    uint32_t (*call)(void);
    const char *line; /* of the fault, where it is refused */
} calls[] = {{"grow", grow, NULL},
             {"fill", fill, NULL},
             {"hmax", hmax, NULL},
             {"regmax", regmax, NULL},
             {"view", view, NULL},
             {"view_kept", view_kept, NULL},
             {"merge", merge, NULL},
             {"a refused view", view_refused, "seedpaint: V1"},
             {"a refused merge", merge_refused, "seedpaint: D1"}};

static void fail(const char *name, const char *why) {
    printf("%s, growth %ld refused: %s\n", name, refused, why);
    exit(1);
}

/* A mask, an input of five discs on it, and a state file of a sixth. */
static void begin(void) {
    for (int i = 0; i < CELLS; i++) {
        mask[i] = 5 + i * 7919 % 23;
        lent.image[i] = i % 97 ? 0 : mask[i];
    }
    memset(lent.out, 1, BYTES);
    memset(lent.state, 2, BYTES);
    const char *disc = "disc 00000000-0000-4000-8000-00000000000%d 9 %d:%d+3\n";
    int n = 0;
    for (int i = 0; i < 5; i++) n += snprintf((char *)input + n, BYTES - n, disc, i, 9 * i, i);
    edits_bytes = n;
    n += snprintf((char *)input + n, BYTES - n, "image\nP5\n%d %d\n255\n", W, H);
    for (int i = 0; i < CELLS; i++) input[n++] = mask[i];
    input_bytes = n;
    before = lent;
}

/* The old bytes of a state file: those that a view of one more disc keeps. */
static void make_old(void) {
    uint8_t first[BYTES];
    begin();
    int n = snprintf((char *)first, BYTES, "disc 00000000-0000-4000-8000-000000000009 7 60:20+9\n");
    memcpy(first + n, input + edits_bytes, input_bytes - edits_bytes);
    n += input_bytes - edits_bytes;
    if (seedpaint_view_kept(first, n, old, 0, 4, lent.out, BYTES, old, BYTES, fault, sizeof fault, &lengths))
        fail("view_kept", "the state file is refused");
    old_bytes = lengths.state;
    memcpy(print, old + PRINT_AT, sizeof print);
}

/* Makes a call with one growth refused, after which all memory has to be given back. Gives its code. */
static uint32_t call_refused(const struct call *it) {
    begin();
    memset(fault, 0, sizeof fault);
    growths = live = 0;
    counting = 1;
    uint32_t code = it->call();
    counting = 0;
    if (live) fail(it->name, "memory is not given back");
    return code;
}

/* Whether the call told this line, and nothing else. */
static int is_told(const char *line) {
    return lengths.fault == strlen(line) && !memcmp(fault, line, lengths.fault);
}

/* Refuses each growth of a call in turn, and gives how many there were. A call may go on with less memory. */
static long refuse_each(const struct call *it) {
    const uint32_t own = it->line ? SEEDPAINT_REFUSED : SEEDPAINT_OK;
    refused = 0;
    if (call_refused(it) != own || (it->line && !is_told(it->line))) fail(it->name, "it answers another code or line");
    struct lent after = lent;
    long all = growths;
    for (refused = 1; refused <= all; refused++) {
        uint32_t code = call_refused(it);
        if (code != own && code != SEEDPAINT_NO_MEMORY) fail(it->name, "it answers another code");
        if (it->line && (code == own) != is_told(it->line)) fail(it->name, "it tells another line");
        if (memcmp(&lent, code == own ? &after : &before, sizeof lent)) fail(it->name, "it leaves something else");
        went_on += code == own;
    }
    return all;
}

int main(void) {
    make_old();
    for (const struct call *it = calls; it < calls + sizeof calls / sizeof *calls; it++)
        printf("%s: %ld growths refused\n", it->name, refuse_each(it));
    printf("after %ld of them the call went on with less memory, and gave the same\n", went_on);
    return 0;
}
