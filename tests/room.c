/*
 * Room in the mail, as the header tells it: mailboxes that jam, and the two
 * rules under which LOCKMGR_CAPACITY messages are enough (proved for rule 1,
 * tried for rule 2). The rules are driven through lists of calls that fill the
 * mail and through random runs, with sessions that are reopened, with plain ranks
 * and with drawn ones.
 */
#include "lockmgr.h"

#include "check.h"

#include <string.h>

enum { S = LOCKMGR_MAX_SESSIONS, M = LOCKMGR_MAX_ITEMS, ENOUGH = LOCKMGR_CAPACITY(S, M) };

static uint8_t table[LOCKMGR_TABLE_SIZE(S, M)];
static uint8_t mail[LOCKMGR_MAIL_SIZE(LOCKMGR_MAX_CAPACITY)];
static uint8_t larger[LOCKMGR_MAIL_SIZE(LOCKMGR_MAX_CAPACITY)];
static size_t table_len, mail_len;

/* The buffers as the last start left them. */
static uint8_t started_table[sizeof table], started_mail[sizeof mail];

/* 1 if every start draws ranks, 0 if session k has rank k. */
static int drawn;

/* The session with this rank. In what follows a session is named by its rank, so
 * that a list of calls fills the mail whatever the ranks are. */
static unsigned ranked(unsigned rank)
{
    unsigned session = 1;
    while (lockmgr_rank(table, session) != rank)
        session++;
    return session;
}

/* The greatest count of messages since the start. */
static unsigned peak;

/* Deliveries by deliver since the start; how many there were before the first
 * that did not fit, and what it would have delivered. */
static unsigned made, made_before_full;
static int was_full;
static lockmgr_message full_message;

/* How many deliveries the last drain made, oldest first. */
static uint64_t delivered;

static unsigned count(void)
{
    return lockmgr_mail_count(mail);
}

static void start(unsigned sessions, unsigned items, unsigned capacity)
{
    static uint64_t ranks_state;
    lockmgr_options options = lockmgr_default_options(sessions, items);
    options.capacity = capacity;
    if (drawn) {
        /* From numbers of their own, so that random runs are the same. */
        uint64_t state = random_state;
        random_state = ranks_state;
        draw_ranks(options.ranks, sessions);
        ranks_state = random_state;
        random_state = state;
    }
    table_len = LOCKMGR_TABLE_SIZE(sessions, items);
    mail_len = LOCKMGR_MAIL_SIZE(capacity);
    peak = made = 0;
    was_full = 0;
    CHECK(lockmgr_start_with(&options, table, table_len, mail, mail_len) == LOCKMGR_ACCEPTED);
    memcpy(started_table, table, table_len);
    memcpy(started_mail, mail, mail_len);
}

/* A step, which is a request or a release where nothing else is said; its
 * refusal. */
static unsigned call(unsigned verb, unsigned rank, unsigned item)
{
    unsigned session = ranked(rank);
    unsigned refusal = lockmgr_step(verb, session, item, table, table_len, mail, mail_len).refusal;
    if (count() > peak)
        peak = count();
    return refusal;
}

static unsigned reopen(unsigned rank)
{
    return lockmgr_reopen(ranked(rank), table, table_len, mail, mail_len);
}

/* What a delivery at a place delivers: the earliest message of the same route. */
static lockmgr_message earliest_of_route(unsigned place)
{
    lockmgr_message at = lockmgr_mail_message(mail, place);
    for (unsigned k = 0; k < place; k++) {
        lockmgr_message message = lockmgr_mail_message(mail, k);
        if (message.direction == at.direction && message.session == at.session &&
            message.item == at.item)
            return message;
    }
    return at;
}

static unsigned deliver(unsigned place)
{
    lockmgr_message message = earliest_of_route(place);
    unsigned refusal = lockmgr_deliver(place, table, table_len, mail, mail_len).answer.refusal;
    if (count() > peak)
        peak = count();
    made += refusal == LOCKMGR_ACCEPTED;
    if (refusal == LOCKMGR_MAIL_FULL && !was_full) {
        was_full = 1;
        full_message = message;
        made_before_full = made;
    }
    return refusal;
}

/* Which message comes next: a place of the mail. */
typedef unsigned (*order)(void);

static unsigned oldest(void)
{
    return 0;
}

static unsigned any(void)
{
    return between(0, count() - 1);
}

/* The oldest message for which comes_last is false, else the oldest. */
static unsigned sooner(int comes_last(lockmgr_message message))
{
    for (unsigned k = 0; k < count(); k++)
        if (!comes_last(lockmgr_mail_message(mail, k)))
            return k;
    return 0;
}

static int spreads(lockmgr_message message)
{
    return message.kind == LOCKMGR_MSG_REBROADCAST || message.kind == LOCKMGR_MSG_PROBE ||
           message.kind == LOCKMGR_MSG_RESEND || message.kind == LOCKMGR_MSG_GRANT;
}

static unsigned spreading_last(void)
{
    return sooner(spreads);
}

/* lockmgr_drain on a copy of the buffers, and the same by single deliveries,
 * which show the greatest count. 1 if the mail gets empty, 0 if it ends with a
 * message that does not fit. */
static int drain_oldest(void)
{
    static uint8_t drained_table[sizeof table], drained_mail[sizeof mail];
    uint64_t most =
        lockmgr_drain_bound(table[LOCKMGR_TABLE_SESSIONS], table[LOCKMGR_TABLE_ITEMS], count());
    memcpy(drained_table, table, table_len);
    memcpy(drained_mail, mail, mail_len);
    lockmgr_drained d = lockmgr_drain(UINT64_MAX, drained_table, table_len, drained_mail, mail_len);
    delivered = 0;
    while (count() > 0 && deliver(0) == LOCKMGR_ACCEPTED)
        delivered++;
    CHECK(d.refusal == LOCKMGR_ACCEPTED && d.made == delivered && d.made <= most);
    CHECK(d.ending == (count() == 0 ? LOCKMGR_DRAIN_EMPTY : LOCKMGR_DRAIN_FULL));
    CHECK(memcmp(drained_table, table, table_len) == 0);
    CHECK(memcmp(drained_mail, mail, mail_len) == 0);
    return d.ending == LOCKMGR_DRAIN_EMPTY;
}

/* Delivers until the mail is empty: 1, or 0 if a delivery is refused. */
static int drain(order next)
{
    if (next == oldest)
        return drain_oldest();
    while (count() > 0)
        if (deliver(next()) != LOCKMGR_ACCEPTED)
            return 0;
    return 1;
}

/* A request or a release, then a drain. */
static int call_and_drain(unsigned verb, unsigned rank, unsigned item, order next)
{
    return call(verb, rank, item) == LOCKMGR_ACCEPTED && drain(next);
}

/* Whatever its limit, a drain makes no delivery and ends with this. */
static void check_stopped(unsigned ending)
{
    static const uint64_t limits[] = {0, 1, UINT64_MAX};
    for (size_t k = 0; k < LENGTH(limits); k++) {
        lockmgr_drained d = lockmgr_drain(limits[k], table, table_len, mail, mail_len);
        CHECK(d.refusal == LOCKMGR_ACCEPTED && d.made == 0 && d.ending == ending);
    }
}

/* 1 if the mail holds messages and every delivery is refused for lack of room. */
static int jammed(void)
{
    for (unsigned k = 0; k < count(); k++)
        if (deliver(k) != LOCKMGR_MAIL_FULL)
            return 0;
    check_stopped(count() > 0 ? LOCKMGR_DRAIN_FULL : LOCKMGR_DRAIN_EMPTY);
    return count() > 0;
}

/* A jammed mail is moved into a larger one, where it empties, oldest first. */
static void check_rescue(unsigned capacity)
{
    size_t larger_len = LOCKMGR_MAIL_SIZE(capacity);
    unsigned before = count();
    CHECK(lockmgr_enlarge_mail(mail, mail_len, capacity, larger, larger_len) == LOCKMGR_ACCEPTED);
    for (size_t k = 0; k < larger_len; k++)
        mail[k] = larger[k];
    mail_len = larger_len;
    CHECK(count() == before && lockmgr_mail_capacity(mail) == capacity);
    CHECK(drain(oldest));
    for (unsigned session = 1; session <= table[LOCKMGR_TABLE_SESSIONS]; session++)
        CHECK(lockmgr_report(session, table, table_len).length == 0);
}

/* ---- Jams ---------------------------------------------------------------- */

/* The release of an item for which all others wait would send a grant and 62
 * resends. 1 if it is delivered. */
static int release_with_long_queue(unsigned capacity)
{
    start(S, 1, capacity);
    CHECK(call_and_drain(LOCKMGR_REQUEST, S, 1, oldest));
    for (unsigned rank = S - 1; rank >= 1; rank--)
        CHECK(call_and_drain(LOCKMGR_REQUEST, rank, 1, oldest));
    CHECK(call(LOCKMGR_RELEASE, S, 1) == LOCKMGR_ACCEPTED);
    CHECK(count() == 1);
    return drain(oldest);
}

static void test_one_message(void)
{
    CHECK(!release_with_long_queue(62));
    CHECK(count() == 1 && jammed());
    check_rescue(63);
    CHECK(release_with_long_queue(63));
    /* The next holder is the most senior, who stood last. */
    CHECK(lockmgr_holder(table, 1) == ranked(1));
}

/* The oldest message does not fit, but one behind it makes room: a drain looks
 * at the oldest alone. */
static void test_not_jammed(void)
{
    start(S, 2, S - 2);
    CHECK(call_and_drain(LOCKMGR_REQUEST, S, 1, oldest));
    for (unsigned rank = S - 1; rank >= 2; rank--)
        CHECK(call_and_drain(LOCKMGR_REQUEST, rank, 1, oldest));
    CHECK(call(LOCKMGR_RELEASE, S, 1) == LOCKMGR_ACCEPTED);
    CHECK(call(LOCKMGR_REQUEST, 1, 2) == LOCKMGR_ACCEPTED);
    check_stopped(LOCKMGR_DRAIN_FULL);
    CHECK(!jammed());
    while (count() > 1)
        CHECK(deliver(1) == LOCKMGR_ACCEPTED);
    CHECK(lockmgr_holds(table, ranked(1), 2));
    CHECK(drain(oldest));
    CHECK(lockmgr_holder(table, 1) == ranked(2));
}

/* A pump that leaves alone, as long as there is anything else, the rebroadcasts
 * to items for which somebody waits. Session 33, the hub, holds the items 1 to
 * 32, for 31 of which a senior session waits, and waits for item 33, held by
 * session 32. One after the other, each session from 34 on holds the item of
 * its number, for which session 32 asks, and then asks for item 1: it becomes
 * the victim, and its clean makes the hub send 31 rebroadcasts, each of which
 * would send two messages. Session 32 gets the item and asks for the next. The
 * last clean stops at session 32, which would send 31 messages for it. */
static int is_pumped(lockmgr_message message)
{
    return message.kind == LOCKMGR_MSG_REBROADCAST && lockmgr_queue_length(table, message.item) > 0;
}

/* 1, or 0 if a delivery is refused. */
static int deliver_all_but_pumped(void)
{
    while (count() > 0) {
        unsigned place = sooner(is_pumped);
        if (is_pumped(lockmgr_mail_message(mail, place)))
            return 1;
        if (deliver(place) != LOCKMGR_ACCEPTED)
            return 0;
    }
    return 1;
}

static void test_passed_over(void)
{
    enum { INITIATOR = 32, HUB = 33, AWAITED = 33, CAPACITY = 962 };
    start(S, M, CAPACITY);
    for (unsigned item = 1; item < AWAITED; item++)
        CHECK(call_and_drain(LOCKMGR_REQUEST, HUB, item, oldest));
    for (unsigned rank = 1; rank < INITIATOR; rank++)
        CHECK(call_and_drain(LOCKMGR_REQUEST, rank, rank + 1, oldest));
    CHECK(call_and_drain(LOCKMGR_REQUEST, INITIATOR, AWAITED, oldest));
    CHECK(call_and_drain(LOCKMGR_REQUEST, HUB, AWAITED, oldest));
    for (unsigned rank = HUB + 1; rank <= S; rank++) {
        CHECK(call(LOCKMGR_REQUEST, rank, rank) == LOCKMGR_ACCEPTED);
        CHECK(deliver_all_but_pumped());
        CHECK(call(LOCKMGR_REQUEST, INITIATOR, rank) == LOCKMGR_ACCEPTED);
        CHECK(deliver_all_but_pumped());
        CHECK(call(LOCKMGR_REQUEST, rank, 1) == LOCKMGR_ACCEPTED);
        CHECK(deliver_all_but_pumped() == (rank < S));
        CHECK(count() == 31 * (rank - HUB) + (rank == S));
    }
    CHECK(count() == CAPACITY && jammed());
    CHECK(lockmgr_report(ranked(HUB), table, table_len).length == 3);
    check_rescue(LOCKMGR_MAX_CAPACITY);
}

/* A pump that never ends, since sessions are reopened. Session 3 holds item 2
 * and waits for item 1, on which the sessions 2 and 1 take turns by release,
 * reopening and request. Each turn leaves a resend for session 3, which is
 * passed over. In the end both ask for item 2: session 3 stores a probe of each,
 * and would send two messages for a resend. A cycle is closed, but the abort for
 * its victim stands behind the resends. */
static unsigned calls; /* steps and reopenings of this pump */

static void makes(unsigned verb, unsigned rank, unsigned item)
{
    calls++;
    CHECK(call(verb, rank, item) == LOCKMGR_ACCEPTED);
}

/* A request that is delivered. */
static void asks(unsigned rank, unsigned item)
{
    makes(LOCKMGR_REQUEST, rank, item);
    makes(LOCKMGR_DELIVER_TO_ITEM, rank, item);
}

/* One turn: the holder of item 1 gives it to the other, and is reopened. */
static void gives(unsigned holder, unsigned other)
{
    makes(LOCKMGR_RELEASE, holder, 1);
    makes(LOCKMGR_DELIVER_TO_ITEM, holder, 1);
    makes(LOCKMGR_DELIVER_TO_SESSION, other, 1);
    calls++;
    CHECK(reopen(holder) == LOCKMGR_ACCEPTED);
}

static void test_turns(void)
{
    enum { CAPACITY = LOCKMGR_MAX_CAPACITY };
    start(3, 2, CAPACITY);
    calls = 0;
    asks(3, 2);
    makes(LOCKMGR_DELIVER_TO_SESSION, 3, 2);
    asks(2, 1);
    makes(LOCKMGR_DELIVER_TO_SESSION, 2, 1);
    asks(3, 1);
    for (unsigned turn = 1; turn < CAPACITY; turn++) {
        if (turn % 2 == 1) {
            asks(1, 1);
            makes(LOCKMGR_DELIVER_TO_SESSION, 2, 1); /* its probe */
            gives(2, 1);
        } else {
            asks(2, 1);
            gives(1, 2);
        }
        CHECK(count() == turn);
    }
    for (unsigned rank = 2; rank >= 1; rank--) {
        asks(rank, 2);
        makes(LOCKMGR_DELIVER_TO_SESSION, 3, 2); /* its probe, */
        makes(LOCKMGR_DELIVER_TO_ITEM, 3, 1);    /* which session 3 sends on */
    }
    CHECK(calls == 26634);
    CHECK(count() == CAPACITY && jammed());
    CHECK(lockmgr_report(ranked(3), table, table_len).length == 2);
    printf("turns with reopening: %d messages, jammed after %u calls\n", CAPACITY, calls);
}

/* Calls and deliveries in any order. 1 if the mail jams. */
static int random_run(unsigned sessions, unsigned items, unsigned capacity, unsigned steps)
{
    start(sessions, items, capacity);
    for (unsigned k = 0; k < steps; k++) {
        if (count() > 0 && between(1, 10) <= 4) {
            if (deliver(any()) == LOCKMGR_MAIL_FULL && jammed())
                return 1;
        } else {
            unsigned verb = between(1, 12) == 1 ? LOCKMGR_RELEASE : LOCKMGR_REQUEST;
            call(verb, between(1, sessions), between(1, items));
        }
    }
    return 0;
}

static void test_random_pump(void)
{
    static const unsigned capacities[] = {40, 70};
    for (size_t k = 0; k < LENGTH(capacities); k++) {
        unsigned jams = 0;
        random_state = 1;
        for (unsigned run = 0; run < 40; run++)
            jams += (unsigned)random_run(S, between(1, 8), capacities[k], 3000);
        printf("random pump, capacity %u: %u of 40 runs jam\n", capacities[k], jams);
        CHECK(jams > 0);
    }
}

/* ---- Lists of calls that fill the mail, S = M = 64 ------------------------- */

/* Rule 1, oldest first, which keeps rule 2 as well. 1 if no delivery is refused. */
static int worst_oldest_first(unsigned capacity)
{
    int fits = 1;
    start(S, M, capacity);
    fits &= call_and_drain(LOCKMGR_REQUEST, S - 1, 1, oldest);
    for (unsigned rank = 1; rank <= S - 2; rank++)
        fits &= call_and_drain(LOCKMGR_REQUEST, rank, 1, oldest);
    fits &= call_and_drain(LOCKMGR_REQUEST, S, 2, oldest);
    fits &= call_and_drain(LOCKMGR_REQUEST, S, 1, oldest);
    for (unsigned item = 3; item <= M; item++)
        fits &= call_and_drain(LOCKMGR_REQUEST, S - 1, item, oldest);
    return fits & call_and_drain(LOCKMGR_REQUEST, S - 1, 2, oldest);
}

/* Rule 1, messages that spread delivered last. */
static int worst_any_order(unsigned capacity)
{
    int fits = 1;
    start(S, M, capacity);
    fits &= call_and_drain(LOCKMGR_REQUEST, S, 1, spreading_last);
    for (unsigned item = 2; item <= M; item++)
        fits &= call_and_drain(LOCKMGR_REQUEST, 2, item, spreading_last);
    fits &= call_and_drain(LOCKMGR_REQUEST, S - 1, 1, spreading_last);
    for (unsigned rank = 1; rank <= S - 2; rank++)
        if (rank != 2)
            fits &= call_and_drain(LOCKMGR_REQUEST, rank, 1, spreading_last);
    fits &= call_and_drain(LOCKMGR_REQUEST, S, 2, spreading_last);
    return fits & call_and_drain(LOCKMGR_REQUEST, 2, 1, spreading_last);
}

/* Rule 2, with calls while there is mail. */
static int worst_calls_at_any_time(unsigned capacity)
{
    int fits = 1;
    start(S, M, capacity);
    for (unsigned item = 1; item <= M; item++)
        fits &= call_and_drain(LOCKMGR_REQUEST, S, item, oldest);
    for (unsigned rank = S - 1; rank >= 1; rank--)
        fits &= call(LOCKMGR_REQUEST, rank, 1) == LOCKMGR_ACCEPTED;
    fits &= call(LOCKMGR_RELEASE, S, 1) == LOCKMGR_ACCEPTED;
    for (unsigned item = 2; item <= M; item++) {
        fits &= deliver(0) == LOCKMGR_ACCEPTED;
        fits &= call(LOCKMGR_RELEASE, S, item) == LOCKMGR_ACCEPTED;
    }
    return fits & drain(oldest);
}

/* The first of these lists with one victim, which is reopened each time: it
 * takes the next item and asks for item 1, whose holder asks for that item. Each
 * time the holder has one item more. */
static int worst_reopened(unsigned capacity, order next)
{
    int fits = 1;
    start(S, M, capacity);
    for (unsigned rank = S - 1; rank >= 1; rank--)
        fits &= call_and_drain(LOCKMGR_REQUEST, rank, 1, next);
    for (unsigned item = 2; fits && item <= M; item++) {
        fits &= call_and_drain(LOCKMGR_REQUEST, S, item, next);
        fits &= call_and_drain(LOCKMGR_REQUEST, S, 1, next);
        fits &= call_and_drain(LOCKMGR_REQUEST, S - 1, item, next);
        CHECK(!fits || reopen(S) == LOCKMGR_ACCEPTED);
    }
    return fits;
}

static int worst_reopened_oldest_first(unsigned capacity)
{
    return worst_reopened(capacity, oldest);
}

static int worst_reopened_any_order(unsigned capacity)
{
    return worst_reopened(capacity, spreading_last);
}

/* Every session releases what it holds and is reopened, those that wait when
 * they are granted their item: nothing is left but what a start leaves. */
static void reopen_all(void)
{
    for (unsigned round = 0; round < S; round++) {
        for (unsigned rank = 1; rank <= S; rank++) {
            for (unsigned item = 1; item <= M; item++)
                if (lockmgr_stage(table, ranked(rank)) != LOCKMGR_WAITING &&
                    lockmgr_holds(table, ranked(rank), item))
                    CHECK(call_and_drain(LOCKMGR_RELEASE, rank, item, oldest));
            if (lockmgr_finished(table, ranked(rank)))
                CHECK(reopen(rank) == LOCKMGR_ACCEPTED);
        }
    }
    CHECK(memcmp(table, started_table, table_len) == 0);
    CHECK(memcmp(mail, started_mail, mail_len) == 0);
}

/* With 6 S + M + 1 messages, with 3 S + M and with as many as the list needs no
 * delivery is refused. With one less a delivery is refused with 9; the first such
 * is printed. */
static void test_worst(const char *name, int worst(unsigned capacity), unsigned needed)
{
    static const unsigned capacities[] = {ENOUGH, 3 * S + M};
    for (size_t k = 0; k < LENGTH(capacities); k++) {
        CHECK(worst(capacities[k]) && !was_full);
        reopen_all();
        printf("%s: at most %u messages, of %u\n", name, peak, capacities[k]);
        CHECK(peak == needed);
    }
    CHECK(worst(needed) && !was_full);
    CHECK(!worst(needed - 1) && was_full);
    printf("    with %u the first that does not fit is a %s, after %u deliveries\n", needed - 1,
           lockmgr_kind_text(full_message.kind), made_before_full);
}

/* Every session locks an item and then asks for that of the next: one drain
 * closes a cycle of all sessions, finds it and dissolves it. Its length is the
 * one that the header names. */
static void test_long_drain(void)
{
    start(S, M, ENOUGH);
    for (unsigned turn = 0; turn < 2; turn++) {
        for (unsigned rank = 1; rank <= S; rank++)
            CHECK(call(LOCKMGR_REQUEST, rank, (rank - 1 + turn) % M + 1) == LOCKMGR_ACCEPTED);
        CHECK(drain(oldest));
    }
    CHECK(delivered == 8198);
    CHECK(lockmgr_stage(table, ranked(S)) == LOCKMGR_ROLLED_BACK);
    printf("a cycle of %d sessions: %lu deliveries in one drain\n", S, (unsigned long)delivered);
}

/* ---- Random runs under the rules ------------------------------------------ */

/* How many sessions were reopened in random calls. */
static unsigned reopened;

/* A request or a release at random, of one of so many items, or a reopening. */
static void random_call(unsigned sessions, unsigned items)
{
    for (unsigned k = 0; k < 8; k++) {
        unsigned rank = between(1, sessions), item = between(1, items);
        unsigned stage = lockmgr_stage(table, ranked(rank));
        int held = lockmgr_holds(table, ranked(rank), item);
        if (lockmgr_finished(table, ranked(rank))) {
            unsigned refusal = reopen(rank);
            CHECK(refusal == LOCKMGR_ACCEPTED || (refusal == LOCKMGR_IN_USE && count() > 0));
            reopened += refusal == LOCKMGR_ACCEPTED;
            return;
        }
        if (stage == LOCKMGR_GROWING && !held) {
            CHECK(call(LOCKMGR_REQUEST, rank, item) == LOCKMGR_ACCEPTED);
            return;
        }
        if (held && (stage == LOCKMGR_SHRINKING || between(1, 10) == 1)) {
            unsigned refusal = call(LOCKMGR_RELEASE, rank, item);
            CHECK(refusal == LOCKMGR_ACCEPTED || refusal == LOCKMGR_WRONG_STAGE);
            return;
        }
    }
}

/* Few items are asked for more often than many. */
static unsigned few_or_many(unsigned run)
{
    static const unsigned items[] = {M, 3, 12, 6};
    return items[run % LENGTH(items)];
}

static void test_rule_1(void)
{
    unsigned most = 0;
    random_state = 7;
    reopened = 0;
    for (unsigned run = 0; run < 12; run++) {
        static const order orders[] = {any, oldest, spreading_last};
        start(S, M, ENOUGH);
        for (unsigned k = 0; k < 400; k++) {
            random_call(S, few_or_many(run));
            CHECK(drain(orders[run % LENGTH(orders)]));
        }
        most = peak > most ? peak : most;
    }
    CHECK(most <= 3 * S + M && reopened > 100);
    printf("rule 1, random runs: at most %u messages, %u reopenings\n", most, reopened);
}

static void test_rule_2(void)
{
    unsigned most = 0;
    random_state = 8;
    reopened = 0;
    for (unsigned run = 0; run < 12; run++) {
        start(S, M, ENOUGH);
        for (unsigned k = 0; k < 1500; k++) {
            if (count() > 0 && between(0, 11) > run)
                CHECK(deliver(0) == LOCKMGR_ACCEPTED);
            else
                random_call(S, few_or_many(run));
        }
        CHECK(drain(oldest));
        most = peak > most ? peak : most;
    }
    CHECK(most <= 3 * S + M && reopened > 30);
    printf("rule 2, random runs: at most %u messages, %u reopenings\n", most, reopened);
}

/* What is proved of rule 1, at every state of random runs: with 6 S + M + 1
 * messages each message that is there can be delivered, and deliveries in an
 * order drawn at random empty the mail within the number that the formula
 * gives. */
static void test_progress(void)
{
    static uint8_t kept_table[sizeof table], kept_mail[sizeof mail];
    unsigned long tried = 0;
    random_state = 10;
    for (unsigned run = 0; run < 100; run++) {
        unsigned sessions = between(2, 8), items = between(1, 6);
        start(sessions, items, (unsigned)LOCKMGR_CAPACITY(sessions, items));
        for (unsigned k = 0; k < 400; k++) {
            random_call(sessions, items);
            uint64_t most = lockmgr_drain_bound(sessions, items, count());
            for (uint64_t deliveries = 0; count() > 0; deliveries++) {
                CHECK(deliveries < most);
                memcpy(kept_table, table, table_len);
                memcpy(kept_mail, mail, mail_len);
                for (unsigned place = 0; place < count(); place++, tried++) {
                    CHECK(deliver(place) == LOCKMGR_ACCEPTED);
                    memcpy(table, kept_table, table_len);
                    memcpy(mail, kept_mail, mail_len);
                }
                if (deliver(any()) != LOCKMGR_ACCEPTED)
                    break;
            }
            CHECK(count() == 0);
        }
    }
    CHECK(tried > 100000);
    printf("rule 1, every message of every state: %lu deliveries\n", tried);
}

/* Few sessions, which are reopened again and again, with 3 S + M messages. */
static void test_small(unsigned rule)
{
    random_state = 9;
    reopened = 0;
    for (unsigned run = 0; run < 60; run++) {
        unsigned sessions = between(2, 12), items = between(1, 8);
        start(sessions, items, 3 * sessions + items);
        for (unsigned k = 0; k < 1500; k++) {
            random_call(sessions, items);
            if (rule == 1)
                CHECK(drain(any));
            else
                while (count() > 0 && between(1, 5) > 1)
                    CHECK(deliver(0) == LOCKMGR_ACCEPTED);
        }
        CHECK(drain(oldest));
    }
    CHECK(reopened > 1000);
    printf("rule %u, small: 3 S + M messages, %u reopenings\n", rule, reopened);
}

int main(void)
{
    setvbuf(stdout, NULL, _IOLBF, 0);
    for (drawn = 0; drawn <= 1; drawn++) {
        printf("%s ranks\n", drawn ? "drawn" : "plain");
        test_one_message();
        test_not_jammed();
        test_passed_over();
        test_random_pump();
        test_turns();
        test_worst("rules 1 and 2, oldest first", worst_oldest_first, 249);
        test_worst("rule 1, any order", worst_any_order, 250);
        test_worst("rule 2, calls at any time", worst_calls_at_any_time, 189);
        test_worst("rules 1 and 2, oldest first, reopening", worst_reopened_oldest_first, 249);
        test_worst("rule 1, any order, reopening", worst_reopened_any_order, 250);
        test_long_drain();
        test_rule_1();
        test_rule_2();
        test_progress();
        test_small(1);
        test_small(2);
    }
    return verdict();
}
