/*
 * Two sessions lock two items in opposite order, come to wait for each other,
 * and are led out of it again. How the cycle closes and is found is shown by
 * single deliveries; for the rest the mail is drained. Each session edits the
 * items that it is granted; the victim's edit is undone after the drain that
 * rolls it back, before the other session goes on. Then the same calls are made
 * with other ranks, and the other session is the victim; it is reopened and
 * tries again. Every answer is checked; the exit status is 0 if all are as
 * expected.
 */
#include "lockmgr.h"

#include <inttypes.h>
#include <stdio.h>
#include <string.h>

enum { SESSIONS = 2, ITEMS = 2 };

static uint8_t table[LOCKMGR_TABLE_SIZE(SESSIONS, ITEMS)];
static uint8_t mail[LOCKMGR_MAIL_SIZE(LOCKMGR_CAPACITY(SESSIONS, ITEMS))];

/* What is locked: for each item the session that edited it last, or 0. */
static unsigned catalogue[ITEMS + 1];

static int differences;

/* A call, what it must answer, and what it means. */
typedef struct {
    unsigned verb, session, item;
    lockmgr_answer expected;
    const char *meaning;
} script_step;

#define REQUEST LOCKMGR_REQUEST
#define RELEASE LOCKMGR_RELEASE
#define TO_ITEM LOCKMGR_DELIVER_TO_ITEM
#define TO_SESSION LOCKMGR_DELIVER_TO_SESSION

/* clang-format off */

/* The expected answer: refusal, sent, closed, victim, initiator. */
static const script_step first_locks[] = {
    {REQUEST, 1, 1, {0, 1, 0, 0, 0}, "Session 1 waits for the answer of item 1."},
    {REQUEST, 2, 2, {0, 1, 0, 0, 0}, "Session 2 waits for the answer of item 2."},
};

static const script_step into_the_cycle[] = {
    {REQUEST, 1, 2, {0, 1, 0, 0, 0}, "Session 1 wants item 2 as well."},
    {TO_ITEM, 1, 2, {0, 1, 0, 0, 0},
     "Session 2 holds it, so session 1 joins the wait queue of item 2.\n"
     "It is senior to the holder: item 2 sends the holder a probe for it."},
    {REQUEST, 2, 1, {0, 1, 0, 0, 0}, "Session 2 wants item 1 as well."},
    {TO_ITEM, 2, 1, {0, 0, 1, 0, 0},
     "Session 1 holds it, so session 2 joins the wait queue of item 1.\n"
     "Now each waits for the other: this step closed a cycle."},
};

static const script_step found[] = {
    {TO_SESSION, 2, 2, {0, 1, 0, 0, 0},
     "Session 2 is waiting, too: it stores the probe and passes it on to item 1."},
    {TO_ITEM, 2, 1, {0, 1, 0, 2, 1},
     "The probe of session 1 has come to an item that session 1 holds: a deadlock.\n"
     "Item 1 declares session 2, the most junior on the way, the victim."},
};

static const script_step crossed[] = {
    {REQUEST, 1, 2, {0, 1, 0, 0, 0}, "The design office wants item 2 as well."},
    {REQUEST, 2, 1, {0, 1, 0, 0, 0}, "The tool room wants item 1 as well."},
};

static const script_step again[] = {
    {REQUEST, 1, 1, {0, 1, 0, 0, 0}, "The design office asks for item 1 again."},
    {RELEASE, 2, 1, {0, 1, 0, 0, 0}, "The tool room is done with item 1."},
};

/* clang-format on */

#define PLAY(script) play(script, sizeof script / sizeof script[0])

/* The place of the message that a delivery takes: the earliest on its route. */
static unsigned place_of(unsigned direction, unsigned session, unsigned item)
{
    unsigned place;
    for (place = 0; place < lockmgr_mail_count(mail); place++) {
        lockmgr_message m = lockmgr_mail_message(mail, place);
        if (m.direction == direction && m.session == session && m.item == item)
            break;
    }
    return place;
}

static lockmgr_answer deliver(unsigned direction, unsigned session, unsigned item)
{
    unsigned place = place_of(direction, session, item);
    lockmgr_delivery d = lockmgr_deliver(place, table, sizeof table, mail, sizeof mail);
    const char *kind = lockmgr_kind_text(d.message.kind);
    if (direction == LOCKMGR_TO_ITEM)
        printf("the %s of session %u reaches item %u\n", kind, session, item);
    else
        printf("the %s of item %u reaches session %u\n", kind, item, session);
    return d.answer;
}

static lockmgr_answer make(const script_step *step)
{
    switch (step->verb) {
    case LOCKMGR_DELIVER_TO_ITEM:
        return deliver(LOCKMGR_TO_ITEM, step->session, step->item);
    case LOCKMGR_DELIVER_TO_SESSION:
        return deliver(LOCKMGR_TO_SESSION, step->session, step->item);
    default:
        printf("%s by session %u of item %u\n", lockmgr_verb_text(step->verb), step->session,
               step->item);
        return lockmgr_step(step->verb, step->session, step->item, table, sizeof table, mail,
                            sizeof mail);
    }
}

static void print_answer(lockmgr_answer answer)
{
    if (answer.refusal != LOCKMGR_ACCEPTED) {
        printf("refused: %s", lockmgr_refusal_text(answer.refusal));
    } else {
        printf("accepted, %u sent", answer.sent);
        if (answer.closed)
            printf(", CYCLE CLOSED");
        if (answer.victim)
            printf(", DEADLOCK DECLARED: victim %u, initiator %u", answer.victim, answer.initiator);
    }
    printf("\n");
}

/* Lines, indented. The last one may end with a line feed or not. */
static void print_indented(const char *text)
{
    char last = '\n';
    for (; *text; text++) {
        if (last == '\n')
            printf("      ");
        putchar(*text);
        last = *text;
    }
    if (last != '\n')
        printf("\n");
}

static int same(lockmgr_answer one, lockmgr_answer other)
{
    return one.refusal == other.refusal && one.sent == other.sent && one.closed == other.closed &&
           one.victim == other.victim && one.initiator == other.initiator;
}

/* Steps and drains are numbered as they come. */
static void print_number(void)
{
    static unsigned number;
    printf("%4u  ", ++number);
}

static void play(const script_step *script, size_t length)
{
    size_t k;
    for (k = 0; k < length; k++) {
        lockmgr_answer answer;
        print_number();
        answer = make(&script[k]);
        print_indented(script[k].meaning);
        printf("      -> ");
        print_answer(answer);
        if (!same(answer, script[k].expected)) {
            printf("      EXPECTED: ");
            print_answer(script[k].expected);
            differences++;
        }
    }
}

static void expect(const char *what, uint64_t found_value, uint64_t expected)
{
    if (found_value != expected) {
        printf("      EXPECTED: %s %" PRIu64 ", not %" PRIu64 "\n", what, expected, found_value);
        differences++;
    }
}

static void undo_edits(unsigned session)
{
    unsigned item;
    for (item = 1; item <= ITEMS; item++) {
        if (catalogue[item] == session) {
            catalogue[item] = 0;
            printf("      (the edit of item %u by session %u is undone)\n", item, session);
        }
    }
}

static void edit(unsigned session, unsigned item)
{
    catalogue[item] = session;
    printf("      (session %u edits item %u)\n", session, item);
}

/* Empties the mail. Who was rolled back and who was granted an item is seen by
 * the stages before and after, and the undoing comes first. */
static void drain(unsigned deliveries, const char *meaning)
{
    uint8_t before[sizeof table];
    lockmgr_drained drained;
    unsigned session;
    memcpy(before, table, sizeof table);
    drained = lockmgr_drain(UINT64_MAX, table, sizeof table, mail, sizeof mail);
    print_number();
    printf("drain\n");
    print_indented(meaning);
    printf("      -> %s, %" PRIu64 " delivered, ending: %s\n",
           lockmgr_refusal_text(drained.refusal), drained.made,
           lockmgr_ending_text(drained.ending));
    expect("refusal of the drain", drained.refusal, LOCKMGR_ACCEPTED);
    expect("deliveries", drained.made, deliveries);
    expect("ending of the drain", drained.ending, LOCKMGR_DRAIN_EMPTY);
    for (session = 1; session <= SESSIONS; session++)
        if (lockmgr_stage(before, session) != LOCKMGR_ROLLED_BACK &&
            lockmgr_stage(table, session) == LOCKMGR_ROLLED_BACK)
            undo_edits(session);
    for (session = 1; session <= SESSIONS; session++)
        if (lockmgr_stage(before, session) == LOCKMGR_WAITING &&
            lockmgr_stage(table, session) == LOCKMGR_GROWING)
            edit(session, lockmgr_awaited(before, session));
}

static void reopen(unsigned session, const char *meaning)
{
    unsigned refusal = lockmgr_reopen(session, table, sizeof table, mail, sizeof mail);
    print_number();
    printf("reopening of session %u\n", session);
    print_indented(meaning);
    printf("      -> %s\n", lockmgr_refusal_text(refusal));
    expect("refusal of reopen", refusal, LOCKMGR_ACCEPTED);
}

/* The cycle in words: what the owner of the edit that will be undone is told. */
static void tell(unsigned victim, const char *expected)
{
    uint8_t bytes[LOCKMGR_MAX_TEXT];
    char text[sizeof bytes + 1] = "";
    lockmgr_text cycle = lockmgr_cycle_text(victim, table, sizeof table, bytes, sizeof bytes);
    memcpy(text, bytes, cycle.length);
    printf("\n      text of the cycle of session %u: %s, %u bytes\n", victim,
           lockmgr_refusal_text(cycle.refusal), cycle.length);
    print_indented(text);
    expect("refusal of the text", cycle.refusal, LOCKMGR_ACCEPTED);
    expect("difference of the text:", strcmp(text, expected) != 0, 0);
}

/* What the reports say, and where the sessions are. */
static void look(unsigned cycle_length, unsigned stage_of_1, unsigned stage_of_2)
{
    unsigned session;
    printf("\n");
    for (session = 1; session <= SESSIONS; session++) {
        lockmgr_cycle cycle = lockmgr_report(session, table, sizeof table);
        printf("      report on session %u: %s, ", session,
               lockmgr_stage_text(lockmgr_stage(table, session)));
        if (cycle.length > 0)
            printf("on a cycle of %u sessions\n", cycle.length);
        else
            printf("on no cycle\n");
        expect("refusal of the report", cycle.refusal, LOCKMGR_ACCEPTED);
        expect("length of the cycle", cycle.length, cycle_length);
    }
    expect("stage of session 1", lockmgr_stage(table, 1), stage_of_1);
    expect("stage of session 2", lockmgr_stage(table, 2), stage_of_2);
}

/* Starts a lock manager in the buffers, and each session locks an item. */
static void start_and_lock(const lockmgr_options *options)
{
    unsigned session;
    expect("refusal of start", lockmgr_start_with(options, table, sizeof table, mail, sizeof mail),
           LOCKMGR_ACCEPTED);
    for (session = 1; session <= SESSIONS; session++)
        expect("rank", lockmgr_rank(table, session), options->ranks[session - 1]);
    PLAY(first_locks);
    drain(4, "Both requests arrive. The items are free: each sends its session a grant.");
}

/* One session holds both items, and nothing is on its way. */
static void expect_both_items(unsigned session)
{
    unsigned item;
    expect("messages left:", lockmgr_mail_count(mail), 0);
    for (item = 1; item <= ITEMS; item++) {
        expect("it holds the item:", lockmgr_holds(table, session, item) ? 1 : 0, 1);
        expect("holder of the item:", lockmgr_holder(table, item), session);
        expect("last editor of the item:", catalogue[item], session);
    }
}

int main(void)
{
    lockmgr_options options = lockmgr_default_options(SESSIONS, ITEMS);
    printf("A lock manager for %d sessions and %d items.\n", SESSIONS, ITEMS);

    printf("\nEach session locks an item\n\n");
    start_and_lock(&options);
    look(0, LOCKMGR_GROWING, LOCKMGR_GROWING);

    printf("\nEach wants the other's item: a cycle\n\n");
    PLAY(into_the_cycle);
    look(2, LOCKMGR_WAITING, LOCKMGR_WAITING);

    printf("\nThe probe finds it\n\n");
    PLAY(found);
    tell(2, "session 1 waits for item 2 held by session 2\n"
            "session 2 waits for item 1 held by session 1\n");

    printf("\nThe victim is rolled back\n\n");
    drain(10, "Session 2 learns that it is the victim. It sends a clean around the cycle,\n"
              "which removes the probes that are stored there. When the clean is back,\n"
              "session 2 leaves the wait queue of item 1, releases item 2 and is rolled\n"
              "back. Item 2 goes to session 1, which holds both items now.");
    look(0, LOCKMGR_GROWING, LOCKMGR_ROLLED_BACK);
    expect_both_items(1);

    printf("\nAnother season: the tool room above the design office\n\n");
    print_indented("Session 1 belongs to the design office and gets rank 2, session 2 to the tool\n"
                   "room and gets rank 1: the senior one has the higher number now. The lock\n"
                   "manager is started anew with these ranks.\n");
    printf("\n");
    options.ranks[0] = 2;
    options.ranks[1] = 1;
    start_and_lock(&options);
    PLAY(crossed);
    drain(14, "The same cycle, but session 1 is the most junior: it is the victim and is\n"
              "rolled back. Item 1 goes to session 2, which holds both items now.");
    look(0, LOCKMGR_ROLLED_BACK, LOCKMGR_GROWING);
    expect_both_items(2);

    printf("\nThe victim is reopened and tries again\n\n");
    reopen(1, "Session 1 was rolled back, and no message is left that names it: it grows\n"
              "again, with the rank that it had.");
    PLAY(again);
    drain(3, "Session 1 joins the wait queue of item 1. Then the release arrives, and item 1\n"
             "goes to session 1.");
    look(0, LOCKMGR_GROWING, LOCKMGR_SHRINKING);
    expect("session 1 holds item 1:", lockmgr_holds(table, 1, 1) ? 1 : 0, 1);
    expect("rank of session 1", lockmgr_rank(table, 1), 2);

    if (differences) {
        printf("\n%d answers differ from what is expected.\n", differences);
        return 1;
    }
    printf("\nAll answers are as expected.\n");
    return 0;
}
