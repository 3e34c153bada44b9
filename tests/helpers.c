/*
 * The helpers of the header: versions, texts, options, ranks, the bound of a
 * drain, deliveries with their events, sessions that are finished, a larger
 * mail; and what each answers to null, to wrong lengths and to numbers out of
 * bounds.
 */
#include "lockmgr.h"

#include "check.h"

#include <string.h>

enum { S = 2, M = 3, C = 6 * S + M + 1 };

static uint8_t table[LOCKMGR_TABLE_SIZE(S, M)], mail[LOCKMGR_MAIL_SIZE(C)];
static uint8_t table_before[sizeof table], mail_before[sizeof mail];

static void fresh(void)
{
    lockmgr_options options = lockmgr_default_options(S, M);
    CHECK(lockmgr_start_with(&options, table, sizeof table, mail, sizeof mail) == LOCKMGR_ACCEPTED);
}

static void request(unsigned session, unsigned item)
{
    lockmgr_answer answer =
        lockmgr_step(LOCKMGR_REQUEST, session, item, table, sizeof table, mail, sizeof mail);
    CHECK(answer.refusal == LOCKMGR_ACCEPTED);
}

static void remember(void)
{
    memcpy(table_before, table, sizeof table);
    memcpy(mail_before, mail, sizeof mail);
}

static int unchanged(void)
{
    return memcmp(table_before, table, sizeof table) == 0 &&
           memcmp(mail_before, mail, sizeof mail) == 0;
}

/* ---- Versions, texts, options --------------------------------------------- */

static void test_version(void)
{
    char text[32];
    snprintf(text, sizeof text, "%d.%d.%d", LOCKMGR_VERSION_MAJOR, LOCKMGR_VERSION_MINOR,
             LOCKMGR_VERSION_PATCH);
    CHECK(strcmp(text, LOCKMGR_VERSION) == 0);
    CHECK(lockmgr_version() == LOCKMGR_VERSION_NUMBER);
    CHECK(LOCKMGR_LAYOUT_VERSION == 2);
    /* This layout: its figures. A change of them is a new layout version. */
    enum { header = 2, session = 74, item = 66, rank = 1 };
    CHECK(LOCKMGR_SESSION_PLACE(3) == header + session * 2);
    CHECK(LOCKMGR_ITEM_PLACE(3, 5) == header + session * 3 + item * 4);
    CHECK(LOCKMGR_RANKS_PLACE(3, 5) == header + session * 3 + item * 5);
    CHECK(LOCKMGR_RANKS_END(3, 5) == header + session * 3 + item * 5 + rank * 3);
    CHECK(LOCKMGR_TABLE_SIZE(3, 5) == LOCKMGR_RANKS_END(3, 5));
    CHECK(LOCKMGR_MAIL_SIZE(7) == 4 + 6 * 7);
    CHECK(LOCKMGR_ROUTE_PLACE(2) == 4 + 3 * 2);
    CHECK(LOCKMGR_BODY_PLACE(7, 2) == 4 + 3 * (7 + 2));
    CHECK(LOCKMGR_MAX_TEXT == 3045);
    CHECK(LOCKMGR_CAPACITY(64, 64) == 449 && LOCKMGR_CAPACITY(S, M) == C);
}

/* The texts of 1 to the last are there, distinct and known; others are not. */
static void check_texts(const char *text(uint64_t number), unsigned first, unsigned last)
{
    for (unsigned k = first; k <= last; k++) {
        CHECK(strcmp(text(k), "unknown") != 0);
        for (unsigned other = first; other < k; other++)
            CHECK(strcmp(text(k), text(other)) != 0);
    }
    if (first > 0)
        CHECK(strcmp(text(0), "unknown") == 0);
    CHECK(strcmp(text(last + 1), "unknown") == 0);
    CHECK(strcmp(text(UINT64_MAX), "unknown") == 0);
    CHECK(strcmp(text((UINT64_C(1) << 32) + first), "unknown") == 0);
}

static void test_texts(void)
{
    check_texts(lockmgr_refusal_text, LOCKMGR_ACCEPTED, LOCKMGR_IN_USE);
    check_texts(lockmgr_verb_text, LOCKMGR_REQUEST, LOCKMGR_DELIVER_TO_SESSION);
    check_texts(lockmgr_stage_text, LOCKMGR_GROWING, LOCKMGR_ROLLED_BACK);
    check_texts(lockmgr_kind_text, LOCKMGR_MSG_REQUEST, LOCKMGR_MSG_WITHDRAWN);
    check_texts(lockmgr_event_text, LOCKMGR_EVENT_NONE, LOCKMGR_EVENT_ROLLED_BACK);
    check_texts(lockmgr_ending_text, LOCKMGR_DRAIN_EMPTY, LOCKMGR_DRAIN_LIMITED);
    CHECK(strcmp(lockmgr_refusal_text(LOCKMGR_BAD_NUMBER), "bad number") == 0);
    CHECK(strcmp(lockmgr_refusal_text(LOCKMGR_BAD_RANKS), "bad ranks") == 0);
    CHECK(LOCKMGR_IN_USE == 15 && strcmp(lockmgr_refusal_text(15), "in use") == 0);
    CHECK(strcmp(lockmgr_verb_text(LOCKMGR_DELIVER_TO_ITEM), "deliver to item") == 0);
    CHECK(strcmp(lockmgr_stage_text(LOCKMGR_CLEANING), "cleaning") == 0);
    CHECK(strcmp(lockmgr_kind_text(LOCKMGR_MSG_ABORT), "abort") == 0);
    CHECK(strcmp(lockmgr_event_text(LOCKMGR_EVENT_UNDO), "undo") == 0);
    CHECK(strcmp(lockmgr_ending_text(LOCKMGR_DRAIN_FULL), "full") == 0);
}

static void test_drain_bound(void)
{
    const uint64_t most = UINT64_C(1000000000000000);
    CHECK(lockmgr_drain_bound(1, 1, 0) == 28);
    CHECK(lockmgr_drain_bound(1, 1, 1) == 28 + 2 * 18);
    CHECK(lockmgr_drain_bound(64, 64, 4096) == UINT64_C(148483661824));
    for (unsigned sessions = 1; sessions <= LOCKMGR_MAX_SESSIONS; sessions++)
        for (unsigned items = 1; items <= LOCKMGR_MAX_ITEMS; items++)
            CHECK(lockmgr_drain_bound(sessions, items, LOCKMGR_MAX_CAPACITY) <= most);
}

static void test_options(void)
{
    lockmgr_options options = lockmgr_default_options(S, M), bad;
    CHECK(options.sessions == S && options.items == M && options.capacity == C);
    for (unsigned k = 1; k <= LOCKMGR_MAX_SESSIONS; k++)
        CHECK(options.ranks[k - 1] == k);
    fresh();
    CHECK(lockmgr_mail_capacity(mail) == C && lockmgr_mail_count(mail) == 0);
    request(1, 1);
    remember();
    CHECK(lockmgr_start_with(NULL, table, sizeof table, mail, sizeof mail) == LOCKMGR_BAD_SIZE);
    CHECK(lockmgr_start_with(&options, NULL, 0, mail, sizeof mail) == LOCKMGR_BAD_SIZE);
    CHECK(lockmgr_start_with(&options, NULL, 9, mail, sizeof mail) == LOCKMGR_BAD_SIZE);
    CHECK(lockmgr_start_with(&options, table, sizeof table, NULL, 0) == LOCKMGR_BAD_SIZE);
    CHECK(lockmgr_start_with(&options, table, sizeof table, NULL, 9) == LOCKMGR_BAD_SIZE);
    for (int more = -1; more <= 1; more += 2) {
        size_t table_len = more < 0 ? sizeof table - 1 : sizeof table + 1;
        size_t mail_len = more < 0 ? sizeof mail - 1 : sizeof mail + 1;
        CHECK(lockmgr_start_with(&options, table, table_len, mail, sizeof mail) ==
              LOCKMGR_BAD_SIZE);
        CHECK(lockmgr_start_with(&options, table, sizeof table, mail, mail_len) ==
              LOCKMGR_BAD_SIZE);
    }
    for (unsigned field = 0; field < 3; field++) {
        static const uint64_t numbers[] = {0, 65, 257, 4097, UINT64_C(1) << 32, UINT64_MAX};
        for (size_t k = 0; k < LENGTH(numbers); k++) {
            bad = lockmgr_default_options(field == 0 ? numbers[k] : S, field == 1 ? numbers[k] : M);
            if (field == 2)
                bad.capacity = numbers[k];
            CHECK(lockmgr_start_with(&bad, table, sizeof table, mail, sizeof mail) ==
                  LOCKMGR_BAD_SIZE);
        }
    }
    CHECK(unchanged());
}

/* ---- Ranks ------------------------------------------------------------------ */

/* The options of a lock manager in which session 2 is senior to session 1. The
 * rank behind theirs is a bad one, which nobody reads. */
static lockmgr_options reversed_options(void)
{
    lockmgr_options options = lockmgr_default_options(S, M);
    options.ranks[0] = 2;
    options.ranks[1] = 1;
    options.ranks[2] = 0;
    return options;
}

static void test_ranks(void)
{
    static uint8_t largest[LOCKMGR_TABLE_SIZE(LOCKMGR_MAX_SESSIONS, 1)];
    lockmgr_options options = reversed_options();
    fresh();
    CHECK(lockmgr_rank(table, 1) == 1 && lockmgr_rank(table, 2) == 2);
    CHECK(lockmgr_start_with(&options, table, sizeof table, mail, sizeof mail) == LOCKMGR_ACCEPTED);
    CHECK(lockmgr_rank(table, 1) == 2 && lockmgr_rank(table, 2) == 1);
    CHECK(table[LOCKMGR_RANKS_PLACE(S, M)] == 2 && table[LOCKMGR_RANKS_PLACE(S, M) + 1] == 1);
    request(1, 1);
    remember();
    for (unsigned rank = 0; rank < 256; rank++) {
        options.ranks[1] = (uint8_t)rank;
        if (rank != 1)
            CHECK(lockmgr_start_with(&options, table, sizeof table, mail, sizeof mail) ==
                  LOCKMGR_BAD_RANKS);
    }
    CHECK(unchanged());

    options = lockmgr_default_options(LOCKMGR_MAX_SESSIONS, 1);
    options.capacity = C;
    for (unsigned k = 1; k <= LOCKMGR_MAX_SESSIONS; k++)
        options.ranks[k - 1] = (uint8_t)(LOCKMGR_MAX_SESSIONS + 1 - k);
    CHECK(lockmgr_start_with(&options, largest, sizeof largest, mail, sizeof mail) ==
          LOCKMGR_ACCEPTED);
    for (unsigned k = 1; k <= LOCKMGR_MAX_SESSIONS; k++)
        CHECK(lockmgr_rank(largest, k) == LOCKMGR_MAX_SESSIONS + 1 - k);
    options.ranks[LOCKMGR_MAX_SESSIONS - 1] = 2;
    CHECK(lockmgr_start_with(&options, largest, sizeof largest, mail, sizeof mail) ==
          LOCKMGR_BAD_RANKS);
}

/* With ranks reversed a deadlock has session 1 as its victim and session 2 as
 * its initiator, and its text begins with session 2. */
static void test_reversed(void)
{
    static const char expected[] = "session 2 waits for item 1 held by session 1\n"
                                   "session 1 waits for item 2 held by session 2\n";
    lockmgr_options options = reversed_options();
    uint8_t text[LOCKMGR_MAX_TEXT];
    lockmgr_answer declared = {0, 0, 0, 0, 0};
    CHECK(lockmgr_start_with(&options, table, sizeof table, mail, sizeof mail) == LOCKMGR_ACCEPTED);
    request(1, 1);
    request(2, 2);
    CHECK(lockmgr_drain(4, table, sizeof table, mail, sizeof mail).ending == LOCKMGR_DRAIN_EMPTY);
    request(1, 2);
    request(2, 1);
    for (unsigned k = 0; k < 4 && declared.victim == 0; k++)
        declared = lockmgr_deliver(0, table, sizeof table, mail, sizeof mail).answer;
    CHECK(declared.victim == 1 && declared.initiator == 2);
    for (unsigned session = 1; session <= S; session++) {
        lockmgr_text cycle = lockmgr_cycle_text(session, table, sizeof table, text, sizeof text);
        CHECK(cycle.refusal == LOCKMGR_ACCEPTED && cycle.length == sizeof expected - 1);
        CHECK(memcmp(text, expected, cycle.length) == 0);
    }
    CHECK(lockmgr_drain(10, table, sizeof table, mail, sizeof mail).ending == LOCKMGR_DRAIN_EMPTY);
    CHECK(lockmgr_stage(table, 1) == LOCKMGR_ROLLED_BACK);
    CHECK(lockmgr_holds(table, 2, 1) && lockmgr_holds(table, 2, 2));
    CHECK(lockmgr_finished(table, 1) && !lockmgr_finished(table, 2));
    CHECK(lockmgr_reopen(1, table, sizeof table, mail, sizeof mail) == LOCKMGR_ACCEPTED);
    CHECK(lockmgr_stage(table, 1) == LOCKMGR_GROWING);
    CHECK(lockmgr_rank(table, 1) == 2 && lockmgr_rank(table, 2) == 1);
}

/* ---- Deliveries ------------------------------------------------------------ */

/* Delivers the message at a place, which must be of a kind, and be this event. */
static void delivers(uint64_t place, unsigned kind, unsigned session, unsigned item, unsigned event)
{
    lockmgr_delivery d = lockmgr_deliver(place, table, sizeof table, mail, sizeof mail);
    CHECK(d.answer.refusal == LOCKMGR_ACCEPTED);
    CHECK(d.message.kind == kind && d.message.session == session && d.message.item == item);
    CHECK(d.event == event);
}

/* A drain leaves what single deliveries of the oldest leave, and the stages
 * before and after it tell what their events tell. */
static void test_drain_and_events(void)
{
    static uint8_t stepped_table[sizeof table], stepped_mail[sizeof mail];
    unsigned event[S + 1] = {LOCKMGR_EVENT_NONE}, made = 0;
    lockmgr_drained drained;
    fresh();
    request(1, 1);
    request(2, 2);
    drained = lockmgr_drain(4, table, sizeof table, mail, sizeof mail);
    CHECK(drained.made == 4 && drained.ending == LOCKMGR_DRAIN_EMPTY);
    request(1, 2);
    request(2, 1);
    remember();
    memcpy(stepped_table, table, sizeof table);
    memcpy(stepped_mail, mail, sizeof mail);
    drained = lockmgr_drain(UINT64_MAX, table, sizeof table, mail, sizeof mail);
    for (; lockmgr_mail_count(stepped_mail) > 0; made++) {
        lockmgr_delivery d =
            lockmgr_deliver(0, stepped_table, sizeof table, stepped_mail, sizeof mail);
        CHECK(d.answer.refusal == LOCKMGR_ACCEPTED);
        if (d.event != LOCKMGR_EVENT_NONE)
            event[d.message.session] = d.event;
    }
    CHECK(drained.refusal == LOCKMGR_ACCEPTED && drained.made == made);
    CHECK(drained.ending == LOCKMGR_DRAIN_EMPTY);
    CHECK(made <= lockmgr_drain_bound(S, M, lockmgr_mail_count(mail_before)));
    CHECK(memcmp(stepped_table, table, sizeof table) == 0);
    CHECK(memcmp(stepped_mail, mail, sizeof mail) == 0);

    CHECK(event[1] == LOCKMGR_EVENT_GRANTED);
    CHECK(lockmgr_stage(table_before, 1) == LOCKMGR_WAITING);
    CHECK(lockmgr_stage(table, 1) == LOCKMGR_GROWING);
    CHECK(lockmgr_awaited(table_before, 1) == 2 && lockmgr_holds(table, 1, 2));
    CHECK(event[2] == LOCKMGR_EVENT_ROLLED_BACK);
    CHECK(lockmgr_stage(table_before, 2) == LOCKMGR_WAITING);
    CHECK(lockmgr_stage(table, 2) == LOCKMGR_ROLLED_BACK);
    CHECK(lockmgr_holds(table_before, 2, 2) && !lockmgr_holds(table, 2, 2));
}

/* Two sessions into a cycle and out again, with every event. */
static void test_events(void)
{
    fresh();
    request(1, 1);
    delivers(0, LOCKMGR_MSG_REQUEST, 1, 1, LOCKMGR_EVENT_NONE);
    delivers(0, LOCKMGR_MSG_GRANT, 1, 1, LOCKMGR_EVENT_GRANTED);
    request(2, 2);
    delivers(0, LOCKMGR_MSG_REQUEST, 2, 2, LOCKMGR_EVENT_NONE);
    delivers(0, LOCKMGR_MSG_GRANT, 2, 2, LOCKMGR_EVENT_GRANTED);
    request(1, 2);
    delivers(0, LOCKMGR_MSG_REQUEST, 1, 2, LOCKMGR_EVENT_NONE);
    delivers(0, LOCKMGR_MSG_PROBE, 2, 2, LOCKMGR_EVENT_NONE);
    request(2, 1);
    /* The probe stands behind the request on its route, which goes first. */
    CHECK(lockmgr_mail_message(mail, 1).kind == LOCKMGR_MSG_PROBE);
    delivers(1, LOCKMGR_MSG_REQUEST, 2, 1, LOCKMGR_EVENT_NONE);
    delivers(0, LOCKMGR_MSG_PROBE, 2, 1, LOCKMGR_EVENT_NONE);
    delivers(0, LOCKMGR_MSG_ABORT, 2, 1, LOCKMGR_EVENT_NONE);
    CHECK(lockmgr_stage(table, 2) == LOCKMGR_CLEANING);
    delivers(0, LOCKMGR_MSG_CLEAN, 2, 1, LOCKMGR_EVENT_NONE);
    delivers(0, LOCKMGR_MSG_CLEAN, 1, 1, LOCKMGR_EVENT_NONE);
    delivers(0, LOCKMGR_MSG_CLEAN, 1, 2, LOCKMGR_EVENT_NONE);
    delivers(0, LOCKMGR_MSG_CLEAN, 2, 2, LOCKMGR_EVENT_UNDO);
    /* It still holds its item, and the item knows it as its holder. */
    CHECK(lockmgr_stage(table, 2) == LOCKMGR_WITHDRAWING);
    CHECK(lockmgr_holds(table, 2, 2) && lockmgr_holder(table, 2) == 2);
    delivers(0, LOCKMGR_MSG_PROBE, 2, 2, LOCKMGR_EVENT_NONE);
    delivers(0, LOCKMGR_MSG_WITHDRAW, 2, 1, LOCKMGR_EVENT_NONE);
    delivers(0, LOCKMGR_MSG_WITHDRAWN, 2, 1, LOCKMGR_EVENT_ROLLED_BACK);
    delivers(0, LOCKMGR_MSG_RELEASE, 2, 2, LOCKMGR_EVENT_NONE);
    delivers(0, LOCKMGR_MSG_GRANT, 1, 2, LOCKMGR_EVENT_GRANTED);
    CHECK(lockmgr_mail_count(mail) == 0);
}

/* A refused delivery: its number, zeros, and every byte as it was. */
static void refuses(lockmgr_delivery d, unsigned refusal)
{
    static const lockmgr_answer no_answer = {0, 0, 0, 0, 0};
    static const lockmgr_message no_message = {0, 0, 0, 0, 0, 0};
    CHECK(d.answer.refusal == refusal);
    d.answer.refusal = LOCKMGR_ACCEPTED;
    CHECK(memcmp(&d.answer, &no_answer, sizeof no_answer) == 0);
    CHECK(memcmp(&d.message, &no_message, sizeof no_message) == 0);
    CHECK(d.event == LOCKMGR_EVENT_NONE);
    CHECK(unchanged());
}

static void test_bad_deliveries(void)
{
    static const uint64_t places[] = {1, 2, 255, 256, UINT64_C(1) << 32, UINT64_MAX};
    fresh();
    remember();
    refuses(lockmgr_deliver(0, table, sizeof table, mail, sizeof mail), LOCKMGR_NO_MESSAGE);
    request(1, 1);
    remember();
    for (size_t k = 0; k < LENGTH(places); k++)
        refuses(lockmgr_deliver(places[k], table, sizeof table, mail, sizeof mail),
                LOCKMGR_NO_MESSAGE);
    refuses(lockmgr_deliver(0, NULL, 0, mail, sizeof mail), LOCKMGR_BAD_SIZE);
    refuses(lockmgr_deliver(0, NULL, 9, mail, sizeof mail), LOCKMGR_BAD_SIZE);
    refuses(lockmgr_deliver(0, table, sizeof table, NULL, 0), LOCKMGR_BAD_SIZE);
    refuses(lockmgr_deliver(0, table, sizeof table, NULL, 9), LOCKMGR_BAD_SIZE);
    for (size_t length = 0; length < sizeof mail; length++)
        refuses(lockmgr_deliver(0, table, sizeof table, mail, length), LOCKMGR_BAD_SIZE);
    for (size_t length = 0; length < sizeof table; length++)
        refuses(lockmgr_deliver(0, table, length, mail, sizeof mail), LOCKMGR_BAD_SIZE);

    /* Bytes that are not well-formed. */
    for (unsigned value = 0; value < 256; value++) {
        fresh();
        request(1, 1);
        mail[LOCKMGR_ROUTE_PLACE(0) + LOCKMGR_ROUTE_SESSION] = (uint8_t)value;
        remember();
        if (value < 1 || value > S)
            refuses(lockmgr_deliver(0, table, sizeof table, mail, sizeof mail), LOCKMGR_BAD_MAIL);
    }
    fresh();
    request(1, 1);
    mail[LOCKMGR_MAIL_COUNT] = C + 1;
    remember();
    refuses(lockmgr_deliver(0, table, sizeof table, mail, sizeof mail), LOCKMGR_BAD_MAIL);
    mail[LOCKMGR_MAIL_CAPACITY] = C + 1;
    remember();
    refuses(lockmgr_deliver(0, table, sizeof table, mail, sizeof mail), LOCKMGR_BAD_SIZE);
    fresh();
    request(1, 1);
    table[LOCKMGR_SESSION_PLACE(2) + LOCKMGR_SESSION_STAGE] = 0;
    remember();
    refuses(lockmgr_deliver(0, table, sizeof table, mail, sizeof mail), LOCKMGR_BAD_TABLE);
    refuses(lockmgr_deliver(9, table, sizeof table, mail, sizeof mail), LOCKMGR_BAD_TABLE);
}

/* ---- Sessions that are finished ------------------------------------------- */

static unsigned reopen(unsigned session)
{
    return lockmgr_reopen(session, table, sizeof table, mail, sizeof mail);
}

/* In every stage, with each item held and with none. */
static void test_finished(void)
{
    for (unsigned stage = LOCKMGR_GROWING; stage <= LOCKMGR_ROLLED_BACK; stage++) {
        for (unsigned item = 0; item <= 64; item++) {
            uint8_t *record = table + LOCKMGR_SESSION_PLACE(2);
            fresh();
            record[LOCKMGR_SESSION_STAGE] = (uint8_t)stage;
            if (item > 0)
                record[LOCKMGR_SESSION_HELD + (item - 1) / 8] = (uint8_t)(1u << (item - 1) % 8);
            CHECK(lockmgr_finished(table, 2) ==
                  (stage == LOCKMGR_ROLLED_BACK || (stage == LOCKMGR_SHRINKING && item == 0)));
            CHECK(!lockmgr_finished(table, 1));
        }
    }
}

/* Two pieces of work by one session: it is finished with its last release, and
 * reopened when that has arrived. */
static void test_reopened(void)
{
    fresh();
    for (unsigned turn = 0; turn < 2; turn++) {
        for (unsigned item = 1; item <= 2; item++) {
            request(1, item);
            delivers(0, LOCKMGR_MSG_REQUEST, 1, item, LOCKMGR_EVENT_NONE);
            delivers(0, LOCKMGR_MSG_GRANT, 1, item, LOCKMGR_EVENT_GRANTED);
        }
        for (unsigned item = 1; item <= 2; item++) {
            CHECK(!lockmgr_finished(table, 1) && reopen(1) == LOCKMGR_IN_USE);
            CHECK(lockmgr_step(LOCKMGR_RELEASE, 1, item, table, sizeof table, mail, sizeof mail)
                      .refusal == LOCKMGR_ACCEPTED);
        }
        CHECK(lockmgr_finished(table, 1));
        for (unsigned item = 1; item <= 2; item++) {
            CHECK(reopen(1) == LOCKMGR_IN_USE);
            delivers(0, LOCKMGR_MSG_RELEASE, 1, item, LOCKMGR_EVENT_NONE);
        }
        CHECK(reopen(1) == LOCKMGR_ACCEPTED);
        CHECK(lockmgr_stage(table, 1) == LOCKMGR_GROWING && !lockmgr_finished(table, 1));
        CHECK(reopen(1) == LOCKMGR_IN_USE);
    }
    /* Every byte is as after the start. */
    remember();
    fresh();
    CHECK(unchanged());
}

/* ---- A larger mail ---------------------------------------------------------- */

static void test_enlarge(void)
{
    static uint8_t larger[LOCKMGR_MAIL_SIZE(300)], untouched[sizeof larger];
    memset(larger, 0xA5, sizeof larger);
    memset(untouched, 0xA5, sizeof untouched);
    fresh();
    request(1, 1);
    request(2, 3);
    remember();
    CHECK(lockmgr_enlarge_mail(NULL, 0, 300, larger, sizeof larger) == LOCKMGR_BAD_SIZE);
    CHECK(lockmgr_enlarge_mail(NULL, 9, 300, larger, sizeof larger) == LOCKMGR_BAD_SIZE);
    CHECK(lockmgr_enlarge_mail(mail, sizeof mail, 300, NULL, 0) == LOCKMGR_BAD_SIZE);
    CHECK(lockmgr_enlarge_mail(mail, sizeof mail, 300, NULL, 9) == LOCKMGR_BAD_SIZE);
    for (size_t length = 0; length < sizeof mail; length++)
        CHECK(lockmgr_enlarge_mail(mail, length, 300, larger, sizeof larger) == LOCKMGR_BAD_SIZE);
    for (size_t length = 0; length < sizeof larger; length++)
        CHECK(lockmgr_enlarge_mail(mail, sizeof mail, 300, larger, length) == LOCKMGR_BAD_SIZE);
    CHECK(lockmgr_enlarge_mail(mail, sizeof mail, 299, larger, sizeof larger) == LOCKMGR_BAD_SIZE);
    CHECK(lockmgr_enlarge_mail(mail, sizeof mail, C - 1, larger, LOCKMGR_MAIL_SIZE(C - 1)) ==
          LOCKMGR_BAD_SIZE);
    CHECK(lockmgr_enlarge_mail(mail, sizeof mail, 4097, larger, LOCKMGR_MAIL_SIZE(4097)) ==
          LOCKMGR_BAD_SIZE);
    CHECK(lockmgr_enlarge_mail(mail, sizeof mail, UINT64_MAX, larger, sizeof larger) ==
          LOCKMGR_BAD_SIZE);
    mail[LOCKMGR_MAIL_COUNT] = C + 1;
    CHECK(lockmgr_enlarge_mail(mail, sizeof mail, 300, larger, sizeof larger) == LOCKMGR_BAD_SIZE);
    mail[LOCKMGR_MAIL_COUNT] = 2;
    CHECK(unchanged() && memcmp(larger, untouched, sizeof larger) == 0);

    CHECK(lockmgr_enlarge_mail(mail, sizeof mail, 300, larger, sizeof larger) == LOCKMGR_ACCEPTED);
    CHECK(unchanged());
    CHECK(lockmgr_mail_capacity(larger) == 300 && lockmgr_mail_count(larger) == 2);
    for (unsigned k = 0; k < 2; k++) {
        lockmgr_message before = lockmgr_mail_message(mail, k);
        lockmgr_message after = lockmgr_mail_message(larger, k);
        CHECK(memcmp(&before, &after, sizeof before) == 0);
    }
    for (unsigned k = 0; k < 4; k++)
        CHECK(lockmgr_deliver(0, table, sizeof table, larger, sizeof larger).answer.refusal ==
              LOCKMGR_ACCEPTED);
    CHECK(lockmgr_holds(table, 1, 1) && lockmgr_holds(table, 2, 3));
    /* The same capacity makes a copy. */
    CHECK(lockmgr_enlarge_mail(mail, sizeof mail, C, mail_before, sizeof mail) == LOCKMGR_ACCEPTED);
    CHECK(memcmp(mail, mail_before, sizeof mail) == 0);
}

int main(void)
{
    test_version();
    test_texts();
    test_options();
    test_ranks();
    test_reversed();
    test_drain_bound();
    test_events();
    test_drain_and_events();
    test_bad_deliveries();
    test_finished();
    test_reopened();
    test_enlarge();
    return verdict();
}
