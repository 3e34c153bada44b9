/*
 * Makes calls that the comparison has written, with what they must answer and
 * leave, on buffers of exactly their length, under the address and
 * undefined-behaviour sanitizers. They come from standard input, as
 * compare/src/stream.rs describes. The library itself is not instrumented, so each
 * call is made three times: on heap blocks (the sanitizer watches copies and this
 * program), and on pages whose first or last byte lies at a page that may not be
 * touched (the processor watches every access). There a buffer that the call only
 * reads cannot be written either. A buffer of length 0 is given as such and as
 * null.
 */
#include "lockmgr.h"

#include "check.h"

#include <inttypes.h>
#include <sanitizer/common_interface_defs.h>
#include <string.h>
#include <sys/mman.h>

enum {
    MAX_NUMBERS = 3,
    MAX_ANSWERS = 5,
    MAX_BUFFERS = 3,
    /* Both are multiples of every usual size of a page. */
    LONGEST = 1 << 17,
    GUARD = 1 << 20
};

/* ---- The stream ---------------------------------------------------------- */

enum { START, STEP, REPORT, DRAIN, CYCLE_TEXT, REOPEN };

/* What a call is given and answers. */
typedef struct {
    const char *name;
    unsigned numbers, answers, buffers;
    struct {
        const char *name;
        int written; /* 0: it is only read */
    } buffer[MAX_BUFFERS];
} shape;

static const shape shapes[] = {
    [START] = {"start", 3, 1, 3, {{"ranks", 0}, {"table", 1}, {"mail", 1}}},
    [STEP] = {"step", 3, 5, 2, {{"table", 1}, {"mail", 1}}},
    [REPORT] = {"report", 1, 2, 1, {{"table", 0}}},
    [DRAIN] = {"drain", 1, 3, 2, {{"table", 1}, {"mail", 1}}},
    [CYCLE_TEXT] = {"cycle text", 1, 2, 2, {{"table", 0}, {"text", 1}}},
    [REOPEN] = {"reopen", 1, 1, 2, {{"table", 1}, {"mail", 0}}},
};

#define BIT(refusal) (1u << LOCKMGR_##refusal)

/* The refusals that a call gives. */
static const unsigned refusals[] = {
    [START] = BIT(BAD_SIZE) | BIT(BAD_RANKS),
    [STEP] = BIT(BAD_VERB) | BIT(BAD_SIZE) | BIT(BAD_TABLE) | BIT(BAD_MAIL) | BIT(BAD_NUMBER) |
             BIT(WRONG_STAGE) | BIT(WRONG_ITEM) | BIT(NO_MESSAGE) | BIT(MAIL_FULL),
    [REPORT] = BIT(BAD_SIZE) | BIT(BAD_TABLE) | BIT(BAD_NUMBER),
    [DRAIN] = BIT(BAD_SIZE) | BIT(BAD_TABLE) | BIT(BAD_MAIL),
    [CYCLE_TEXT] =
        BIT(BAD_SIZE) | BIT(BAD_TABLE) | BIT(BAD_NUMBER) | BIT(NO_CYCLE) | BIT(SHORT_BUFFER),
    [REOPEN] = BIT(BAD_SIZE) | BIT(BAD_TABLE) | BIT(BAD_MAIL) | BIT(BAD_NUMBER) | BIT(IN_USE),
};

/* The call that was read last, and how many there were. */
static unsigned long calls;
static unsigned which;
static shape call;
static uint64_t numbers[MAX_NUMBERS], answer[MAX_ANSWERS];
static size_t lengths[MAX_BUFFERS];
static uint8_t before[MAX_BUFFERS][LONGEST], after[MAX_BUFFERS][LONGEST];

static void stop(const char *why)
{
    printf("FAILED after %lu calls of the stream: %s\n", calls, why);
    exit(1);
}

static void read_bytes(uint8_t *bytes, size_t length)
{
    if (fread(bytes, 1, length, stdin) != length)
        stop("the stream ends within a call");
}

static uint64_t read_number(void)
{
    uint8_t bytes[8];
    uint64_t number = 0;
    read_bytes(bytes, sizeof bytes);
    for (unsigned k = sizeof bytes; k > 0; k--)
        number = number << 8 | bytes[k - 1];
    return number;
}

/* 1 if nothing is left. */
static int at_end(void)
{
    return ungetc(getc(stdin), stdin) == EOF;
}

/* Reads the next call; 0 if there is none. */
static int read_call(void)
{
    if (at_end())
        stop(calls == 0 ? "no calls" : "the stream has no end");
    uint64_t number = read_number();
    if (number == 0) {
        if (calls == 0)
            stop("no calls");
        if (read_number() != calls)
            stop("the stream had more calls or fewer");
        if (!at_end())
            stop("there is something behind the end");
        return 0;
    }
    if (number > LENGTH(shapes))
        stop("there is no such call");
    which = (unsigned)number - 1;
    call = shapes[which];
    for (unsigned k = 0; k < call.numbers; k++)
        numbers[k] = read_number();
    for (unsigned k = 0; k < call.buffers; k++) {
        uint64_t length = read_number();
        if (length > LONGEST)
            stop("a buffer is too long");
        lengths[k] = (size_t)length;
        read_bytes(before[k], lengths[k]);
    }
    for (unsigned k = 0; k < call.answers; k++)
        answer[k] = read_number();
    for (unsigned k = 0; k < call.buffers; k++)
        if (call.buffer[k].written)
            read_bytes(after[k], lengths[k]);
        else
            memcpy(after[k], before[k], lengths[k]);
    calls++;
    return 1;
}

/* ---- Buffers ------------------------------------------------------------- */

typedef enum { HEAP, PAGES_BEHIND, PAGES_BEFORE, PLACINGS } placing;

static const char *const placings[] = {"heap blocks", "a guard page behind", "a guard page before"};

static placing placed;

/* The pages of each buffer, between others that may not be touched. */
static uint8_t *pages[MAX_BUFFERS];

static void out_of_memory(void)
{
    printf("out of memory\n");
    exit(2);
}

/* What may be done with the pages of a buffer. */
static void allow(unsigned k, int rights)
{
    if (mprotect(pages[k], LONGEST, rights) != 0)
        out_of_memory();
}

static void map_pages(void)
{
    for (unsigned k = 0; k < MAX_BUFFERS; k++) {
        uint8_t *all =
            mmap(NULL, LONGEST + 2 * GUARD, PROT_NONE, MAP_PRIVATE | MAP_ANONYMOUS, -1, 0);
        if (all == MAP_FAILED)
            out_of_memory();
        pages[k] = all + GUARD;
        allow(k, PROT_READ | PROT_WRITE);
    }
}

/* The bytes to lend as one of the buffers, which hold what was read. */
static uint8_t *lent(unsigned k)
{
    uint8_t *bytes = placed == HEAP           ? malloc(lengths[k])
                     : placed == PAGES_BEFORE ? pages[k]
                                              : pages[k] + LONGEST - lengths[k];
    if (lengths[k] > 0) {
        if (bytes == NULL)
            out_of_memory();
        memcpy(bytes, before[k], lengths[k]);
    }
    return bytes;
}

/* ---- Calls --------------------------------------------------------------- */

/* How often calls were made on each placing, and what each has answered. */
static unsigned long made[PLACINGS], accepted[PLACINGS];
static unsigned met[LENGTH(shapes)];

/* Makes the call on these bytes; what it answers. */
static void make_call(uint8_t *const *b, uint64_t *found)
{
    const uint64_t *n = numbers;
    const size_t *l = lengths;
    lockmgr_answer step;
    lockmgr_cycle cycle;
    lockmgr_drained drained;
    lockmgr_text text;
    switch (which) {
    case START:
        found[0] = lockmgr_start(n[0], n[1], n[2], b[0], l[0], b[1], l[1], b[2], l[2]);
        break;
    case STEP:
        step = lockmgr_step(n[0], n[1], n[2], b[0], l[0], b[1], l[1]);
        found[0] = step.refusal;
        found[1] = step.sent;
        found[2] = step.closed;
        found[3] = step.victim;
        found[4] = step.initiator;
        break;
    case REPORT:
        cycle = lockmgr_report(n[0], b[0], l[0]);
        found[0] = cycle.refusal;
        found[1] = cycle.length;
        break;
    case DRAIN:
        drained = lockmgr_drain(n[0], b[0], l[0], b[1], l[1]);
        found[0] = drained.refusal;
        found[1] = drained.made;
        found[2] = drained.ending;
        break;
    case CYCLE_TEXT:
        text = lockmgr_cycle_text(n[0], b[0], l[0], b[1], l[1]);
        found[0] = text.refusal;
        found[1] = text.length;
        break;
    case REOPEN:
        found[0] = lockmgr_reopen(n[0], b[0], l[0], b[1], l[1]);
        break;
    }
}

/* A number of the answer, or a byte of a buffer, must be what the stream says. */
static void same(const char *what, const char *of, size_t k, uint64_t found, uint64_t expected)
{
    char text[200] = "";
    if (found != expected)
        snprintf(text, sizeof text,
                 "call %lu, %s, on %s: %s %zu of the %s is %" PRIu64 ", not %" PRIu64, calls,
                 call.name, placings[placed], what, k, of, found, expected);
    check(found == expected, text, __LINE__);
}

static void same_bytes(unsigned k, const uint8_t *bytes)
{
    size_t place = 0;
    if (lengths[k] == 0)
        return;
    if (memcmp(bytes, after[k], lengths[k]) != 0)
        while (bytes[place] == after[k][place])
            place++;
    same("byte", call.buffer[k].name, place, bytes[place], after[k][place]);
}

/* Makes the call that was read. A buffer of length 0 is null, or not. */
static void play(int null)
{
    uint8_t *bytes[MAX_BUFFERS];
    uint64_t found[MAX_ANSWERS];
    for (unsigned k = 0; k < call.buffers; k++) {
        bytes[k] = null && lengths[k] == 0 ? NULL : lent(k);
        if (placed != HEAP && !call.buffer[k].written)
            allow(k, PROT_READ);
    }
    make_call(bytes, found);
    for (unsigned k = 0; k < call.answers; k++)
        same("number", "answer", k, found[k], answer[k]);
    for (unsigned k = 0; k < call.buffers; k++) {
        same_bytes(k, bytes[k]);
        if (placed == HEAP)
            free(bytes[k]);
        else if (!call.buffer[k].written)
            allow(k, PROT_READ | PROT_WRITE);
    }
    made[placed]++;
    accepted[placed] += found[0] == LOCKMGR_ACCEPTED;
    met[which] |= 1u << found[0] % 32;
}

static int has_empty_buffer(void)
{
    for (unsigned k = 0; k < call.buffers; k++)
        if (lengths[k] == 0)
            return 1;
    return 0;
}

/* Null in place of each buffer of each call, and of all. */
static void test_null(void)
{
    static const uint8_t ranks[] = {1, 2};
    static uint8_t table[LOCKMGR_TABLE_SIZE(2, 2)], mail[LOCKMGR_MAIL_SIZE(2)];
    const size_t r = sizeof ranks, t = sizeof table, m = sizeof mail;
    CHECK(lockmgr_start(2, 2, 2, NULL, 0, table, t, mail, m) == LOCKMGR_BAD_SIZE);
    CHECK(lockmgr_start(2, 2, 2, ranks, r, NULL, 0, mail, m) == LOCKMGR_BAD_SIZE);
    CHECK(lockmgr_start(2, 2, 2, ranks, r, table, t, NULL, 0) == LOCKMGR_BAD_SIZE);
    CHECK(lockmgr_start(2, 2, 2, NULL, 0, NULL, 0, NULL, 0) == LOCKMGR_BAD_SIZE);
    CHECK(lockmgr_start(2, 2, 2, ranks, r, table, t, mail, m) == LOCKMGR_ACCEPTED);
    CHECK(lockmgr_step(LOCKMGR_REQUEST, 1, 1, NULL, 0, mail, m).refusal == LOCKMGR_BAD_SIZE);
    CHECK(lockmgr_step(LOCKMGR_REQUEST, 1, 1, table, t, NULL, 0).refusal == LOCKMGR_BAD_SIZE);
    CHECK(lockmgr_step(LOCKMGR_REQUEST, 1, 1, NULL, 0, NULL, 0).refusal == LOCKMGR_BAD_SIZE);
    CHECK(lockmgr_step(0, 1, 1, NULL, 0, NULL, 0).refusal == LOCKMGR_BAD_VERB);
    CHECK(lockmgr_drain(UINT64_MAX, NULL, 0, mail, m).refusal == LOCKMGR_BAD_SIZE);
    CHECK(lockmgr_drain(UINT64_MAX, table, t, NULL, 0).refusal == LOCKMGR_BAD_SIZE);
    CHECK(lockmgr_drain(0, NULL, 0, NULL, 0).refusal == LOCKMGR_BAD_SIZE);
    CHECK(lockmgr_reopen(1, NULL, 0, mail, m) == LOCKMGR_BAD_SIZE);
    CHECK(lockmgr_reopen(1, table, t, NULL, 0) == LOCKMGR_BAD_SIZE);
    CHECK(lockmgr_reopen(1, NULL, 0, NULL, 0) == LOCKMGR_BAD_SIZE);
    CHECK(lockmgr_report(1, NULL, 0).refusal == LOCKMGR_BAD_SIZE);
    CHECK(lockmgr_cycle_text(1, NULL, 0, NULL, 0).refusal == LOCKMGR_BAD_SIZE);
    CHECK(lockmgr_cycle_text(1, table, t, NULL, 0).refusal == LOCKMGR_NO_CYCLE);
}

/* Each call was accepted, and refused with each of its refusals. */
static void check_met(void)
{
    for (size_t k = 0; k < LENGTH(shapes); k++)
        for (unsigned refusal = LOCKMGR_ACCEPTED; refusal <= LOCKMGR_IN_USE; refusal++) {
            char text[100];
            snprintf(text, sizeof text, "no %s has answered %u", shapes[k].name, refusal);
            if ((refusals[k] | BIT(ACCEPTED)) >> refusal & 1)
                check(met[k] >> refusal & 1, text, __LINE__);
        }
}

/* Where a sanitizer has ended the program. */
static void tell_place(void)
{
    printf("FAILED in call %lu, %s, on %s\n", calls, call.name, placings[placed]);
    fflush(stdout);
}

int main(void)
{
    test_null();
    map_pages();
    __sanitizer_set_death_callback(tell_place);
    while (read_call())
        for (placed = HEAP; placed < PLACINGS; placed++) {
            play(0);
            if (has_empty_buffer())
                play(1);
        }
    for (placed = HEAP; placed < PLACINGS; placed++)
        printf("%-20s %7lu calls, %7lu accepted\n", placings[placed], made[placed],
               accepted[placed]);
    check_met();
    return verdict();
}
