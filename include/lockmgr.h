/*
 * lockmgr: a lock manager that finds deadlocks, as a C library.
 *
 * Sessions lock items, one at a time and exclusively. An item that is held
 * keeps a wait queue, and when it is released it goes to the most senior
 * session there. Sessions and items talk only by messages, which stand in a
 * mailbox until you deliver them. When sessions come to wait for each other in
 * a cycle, probes find it: the most junior session of the cycle, the victim, is
 * rolled back and gives up everything that it holds. A session whose work is
 * over can be reopened for the next piece of work. You call six functions on
 * numbers and byte buffers. The library allocates nothing, keeps nothing
 * between calls, does no input or output and starts no threads.
 *
 * Its limits: 1 to 64 sessions, 1 to 64 items, 1 to 4096 messages. Locks are
 * exclusive. A session that waits cannot give up. The library is built for
 * x86-64; this header is C99 and C++11.
 *
 *
 * LIFE OF A LOCK MANAGER
 *
 *   1. Choose the number of sessions and of items, and the capacity of the
 *      mailbox; LOCKMGR_CAPACITY tells one that is enough. Choose ranks as well
 *      if seniority is not to go by session numbers (see SENIORITY). Provide two
 *      buffers of the sizes LOCKMGR_TABLE_SIZE and LOCKMGR_MAIL_SIZE: the table,
 *      which holds sessions, items and ranks, and the mail, which is the mailbox.
 *   2. lockmgr_start fills both.
 *   3. lockmgr_step does one thing at a time: a session sends a request or a
 *      release, or one message is delivered. Every step names one session and
 *      one item. lockmgr_deliver is a step that delivers and says what that
 *      meant for the session.
 *   4. lockmgr_drain delivers, oldest first, until the mail is empty, in one
 *      call.
 *   5. lockmgr_reopen brings a session whose work is over back to its beginning,
 *      so that its number serves the next piece of work.
 *   6. lockmgr_report tells, at any time, whether a session lies on a cycle, and
 *      lockmgr_cycle_text writes in words who waits there for whom.
 *   7. There is no call to end it: drop the buffers, or start again on them.
 *
 * Sessions and items are numbered from 1.
 *
 *   uint8_t table[LOCKMGR_TABLE_SIZE(2, 3)];                  // 2 sessions, 3 items
 *   uint8_t mail[LOCKMGR_MAIL_SIZE(LOCKMGR_CAPACITY(2, 3))];
 *   lockmgr_options options = lockmgr_default_options(2, 3);
 *   lockmgr_answer answer;
 *   lockmgr_drained drained;
 *
 *   if (lockmgr_start_with(&options, table, sizeof table, mail, sizeof mail) != 0)
 *       ...
 *   // Session 1 asks for item 3: the request goes into the mail.
 *   answer = lockmgr_step(LOCKMGR_REQUEST, 1, 3,
 *                         table, sizeof table, mail, sizeof mail);
 *   // The request reaches item 3, which is free and answers with a grant. The
 *   // grant reaches session 1, which holds item 3 from now on.
 *   drained = lockmgr_drain(UINT64_MAX, table, sizeof table, mail, sizeof mail);
 *   if (lockmgr_holds(table, 1, 3))
 *       ...
 *
 *
 * SENIORITY
 *
 * Seniority decides who is rolled back, and who of those in its wait queue holds
 * an item next when its release arrives; and the text of a cycle begins with the
 * most senior member. Who came first does not matter: a session in the queue can
 * be passed over by senior ones that come later, and by the same one again only
 * after that one was reopened. Where senior sessions are reopened again and
 * again, a junior one may wait without end or be rolled back each time. Work that
 * was rolled back may go on under another number, a more senior one that is free.
 *
 * Every session has a rank, and rank 1 is the most senior. By default session k
 * has rank k (lockmgr_default_options): session 1 is the most senior, the
 * session with the highest number the most junior. Other ranks are for a maker
 * who wants, say, the sessions of the tool room above those of the design
 * office, and changes that each season. lockmgr_start takes a list of S ranks,
 * a byte for each session: byte k - 1 is the rank of session k. They are the
 * numbers 1 to S, none missing and none twice.
 *
 *   // Sessions 1 and 2 belong to the design office, 3 and 4 to the tool room.
 *   static const uint8_t ranks[] = {3, 4, 1, 2};
 *   lockmgr_options options = lockmgr_default_options(4, 3);
 *   memcpy(options.ranks, ranks, sizeof ranks);
 *
 * Wherever this header says senior or junior, ranks are meant, also in what is
 * guaranteed. Session numbers decide only in which order a session sends its
 * stored probes.
 *
 * Ranks are fixed from the start on: they stand in the table, where
 * lockmgr_rank reads them, and no later call changes them. For other ranks let
 * the sessions end and start anew.
 *
 *
 * THE BUFFERS
 *
 * All buffers are yours: the table, the mail, the list of ranks for a start,
 * and the one for the text of a cycle. A call borrows them until it returns and
 * keeps no pointer. What the library asks of you, because no code can check it:
 *
 *   - a pointer with a length other than 0 points to that many bytes;
 *   - the buffers of one call do not overlap. To start anew with the ranks that
 *     stand in the table, copy them first;
 *   - one call at a time works on a buffer; a list of ranks may be read by
 *     several. Calls on different buffers may run at the same time in different
 *     threads.
 *
 * A null pointer is allowed with length 0. As table, mail or list of ranks it
 * is refused with LOCKMGR_BAD_SIZE like every other wrong length; for a text it
 * is a buffer of 0 bytes, which is too short. With another length it crashes,
 * as it does in any C library. Any contents are allowed: every call judges the
 * bytes first and refuses those that are not well-formed. A refused call leaves
 * every byte as it was. The buffers need no alignment; table and mail hold no
 * pointers and no padding, so that you may copy them, store them in a file,
 * send them elsewhere and go on there (see VERSIONS).
 *
 * All numbers in calls are 64 bits wide, so that nothing you pass is cut off
 * before it is judged: 257 is not taken for 1.
 *
 *
 * STAGES OF A SESSION
 *
 * A session grows, asking for one item after the other, and then shrinks. It
 * asks for the next item when it has the last one, and for none after its
 * first release until it is reopened. lockmgr_stage reads where it is.
 *
 *   LOCKMGR_GROWING      may request and release
 *   LOCKMGR_WAITING      has requested an item and waits for the grant
 *   LOCKMGR_SHRINKING    has released an item; may release, not request
 *   LOCKMGR_CLEANING     is the victim of a cycle; its clean is on its way to
 *                        remove the probes of the cycle
 *   LOCKMGR_WITHDRAWING  is a victim that leaves the wait queue it stands in
 *   LOCKMGR_ROLLED_BACK  was a victim, has released everything, and is done
 *
 * A victim goes through the last three stages by deliveries alone, and never
 * turns back. From LOCKMGR_SHRINKING and LOCKMGR_ROLLED_BACK only lockmgr_reopen
 * leads back to LOCKMGR_GROWING; see the next section. So the life of a session
 * is a circle:
 *
 *           request                abort
 *   GROWING -------> WAITING -------------> CLEANING
 *    |  ^  <-------                             |
 *    |  |    grant                              v
 *    |  |                                  WITHDRAWING
 *    |  |                                       |
 *    |  |   reopen                              v
 *    |  +----------+-------------------- ROLLED_BACK
 *    |             |
 *    +-------> SHRINKING
 *     release
 *
 * When to undo. What a session has changed in the items that it holds is yours
 * to undo if it becomes a victim, before anybody else works on these items.
 *
 *   - With lockmgr_deliver, undo when it answers LOCKMGR_EVENT_UNDO, before the
 *     next delivery: the session is withdrawing and still holds its items. Once
 *     it is rolled back, its releases are on their way and its items go to
 *     others.
 *   - With lockmgr_drain, the rollback and the grants that follow lie within
 *     one call. When it returns, first undo for every session that has come to
 *     LOCKMGR_ROLLED_BACK, and only then let anybody know of a grant. Such a
 *     session holds nothing any more; a copy of the table from before the
 *     drain tells what it held.
 *   - With both, undo each victim once: one that a drain leaves at
 *     LOCKMGR_WITHDRAWING has passed its LOCKMGR_EVENT_UNDO, so undo it before
 *     the next delivery; one that you have undone at that event is not undone
 *     again after a drain.
 *   - Undo before you reopen the session. Its stage tells that it was rolled
 *     back only until then.
 *
 *
 * REOPENING A SESSION
 *
 * The work of a session is over when it has released everything that it held,
 * or was rolled back; lockmgr_finished tells. lockmgr_reopen then takes it back
 * to LOCKMGR_GROWING: it holds nothing, stores no probes and may request again.
 * It keeps its rank. So a few session numbers serve any number of pieces of
 * work, one after the other.
 *
 * It is allowed when nothing is left of the work before. All of this must hold:
 *
 *   - the session is LOCKMGR_SHRINKING and holds nothing, or is
 *     LOCKMGR_ROLLED_BACK;
 *   - no message in the mail comes from it or goes to it, and no probe, clean or
 *     abort there names it;
 *   - it stands in no wait queue, and no item has it as its holder;
 *   - no session stores a probe that has it as initiator or junior.
 *
 * Otherwise the call is refused with LOCKMGR_IN_USE; so it is for a session that
 * is growing, which needs no reopening. A refusal changes nothing: deliver on and
 * try again. What you usually do is to deliver until the mail is empty after the
 * last release, and then to reopen:
 *
 *   answer = lockmgr_step(LOCKMGR_RELEASE, 1, 3,
 *                         table, sizeof table, mail, sizeof mail);
 *   drained = lockmgr_drain(UINT64_MAX, table, sizeof table, mail, sizeof mail);
 *   if (drained.ending == LOCKMGR_DRAIN_EMPTY && lockmgr_finished(table, 1)) {
 *       uint8_t refusal = lockmgr_reopen(1, table, sizeof table,
 *                                        mail, sizeof mail);
 *       if (refusal != LOCKMGR_ACCEPTED)
 *           ...
 *   }
 *
 * On a lock manager that was started the last two conditions hold where the
 * first two do. So with an empty mail every session whose work is over can be
 * reopened. That is PROVED, for every lock manager and every list of its calls.
 * A server that keeps Rule 1 below, with the capacity given there, can go on for
 * ever: every deadlock is dissolved within a known number of deliveries, no
 * message is stuck, and the number of every session whose work is over comes free
 * again.
 *
 * What is guaranteed holds with reopening at any place among the calls. A
 * session counts as rolled back each time it comes to LOCKMGR_ROLLED_BACK.
 *
 *
 * DELIVERING
 *
 * The mailbox has a route for each direction, session and item. A delivery
 * takes the earliest message of one route. Messages are never lost and never
 * overtake each other on a route. This delivers all there is, oldest first:
 *
 *   drained = lockmgr_drain(UINT64_MAX, table, sizeof table, mail, sizeof mail);
 *   if (drained.refusal != LOCKMGR_ACCEPTED)
 *       ...
 *   else if (drained.ending != LOCKMGR_DRAIN_EMPTY)
 *       ...                                         // see the next section
 *
 * What came of it is read from the table. To see each delivery, as a caller
 * must who logs deadlocks, or to choose the order, deliver one by one:
 *
 *   while (lockmgr_mail_count(mail) > 0) {
 *       delivery = lockmgr_deliver(0, table, sizeof table, mail, sizeof mail);
 *       if (delivery.answer.refusal != LOCKMGR_ACCEPTED)
 *           ...                                     // see the next section
 *       else if (delivery.event == LOCKMGR_EVENT_GRANTED)
 *           ...    // delivery.message.session holds delivery.message.item
 *       else if (delivery.event == LOCKMGR_EVENT_UNDO)
 *           ...    // undo what delivery.message.session has changed
 *   }
 *
 *
 * ROOM IN THE MAIL
 *
 * A delivery may send more messages than the one it takes. If they do not fit,
 * it is refused with LOCKMGR_MAIL_FULL and nothing has happened. A delivery
 * that sends at most one message always fits. But a mailbox can come to hold
 * only messages that do not fit any more. It is jammed then: every delivery is
 * refused, for good, and who waits goes on waiting. A single message can do
 * it: with 64 sessions, one item and a capacity of 62, the release of an item
 * for which 63 sessions wait would send 63 messages.
 *
 * There are two rules against this. Keep one of them from the start on, and give
 * the mailbox at least LOCKMGR_CAPACITY(sessions, items) messages, which is
 * 6 S + M + 1, or 449 for 64 sessions and 64 items:
 *
 *   Rule 1. Request, release or reopen only while the mail is empty. Then
 *           deliver, in any order, until it is empty again.
 *   Rule 2. Request, release or reopen at any time. Always deliver the oldest
 *           message.
 *
 * Who delivers by lockmgr_drain alone keeps Rule 2, whenever these calls are
 * made, and Rule 1 too if between any two of these calls a drain ended with
 * LOCKMGR_DRAIN_EMPTY. Calls that are refused break neither rule, and reports
 * and texts never do.
 *
 * Rule 1 is PROVED to be enough with that capacity, for every lock manager and
 * every list of calls that keeps the rule: there are never more than 6 S + M + 1
 * messages on their way, no delivery of a message that is there is refused, and
 * deliveries, in any order, empty the mail within D of them, the D of
 * lockmgr_drain with the number of messages that there are now. So lockmgr_drain
 * with a limit above D always ends with LOCKMGR_DRAIN_EMPTY. When the mail is
 * empty no cycle stands, and sessions have been rolled back as often as cycles
 * were closed; that is proved with either rule and with none. So is that a drain
 * whose limit is high enough ends, with an empty mail or at a message that does
 * not fit.
 *
 * Rule 2 is TRIED, not proved. Under either rule nothing that was tried has ever
 * needed more than 3 S + M messages, 256 for 64 sessions and 64 items: all states
 * of lock managers of up to 4 sessions and 4 items, and of 5 and 2, with
 * reopening; searches for the worst case with up to 12 of each; lists made to
 * fill the mail of 64 of each, which come to 249 under Rule 2 and 250 under Rule
 * 1; and long runs of servers that call in batches and then drain.
 *
 * For deadlocks the order of deliveries does not matter. For room it does, where
 * Rule 1 is not kept: a mailbox of 962 messages has been jammed by passing over
 * routes that carry rebroadcasts. Leaving places free before a call is no
 * substitute for a rule.
 *
 * Without a rule, where sessions are reopened, passing over one route can jam a
 * mailbox of any capacity. Session 3 holds item 2 and waits for item 1. Sessions
 * 1 and 2 take turns on item 1 by release, reopening and request; each turn
 * leaves a resend for session 3, which is not delivered. Then both ask for item
 * 2, and each resend would send two messages. With these 3 sessions and 2 items
 * a mailbox of 4096 messages is jammed after 26,634 calls. Both rules keep clear
 * of this: under Rule 1 the resend is delivered before the next of these calls,
 * under Rule 2 before all that is sent after it.
 *
 * If every delivery is refused all the same, or a drain ends with
 * LOCKMGR_DRAIN_FULL, which under Rule 1 can happen only in a mailbox smaller
 * than LOCKMGR_CAPACITY, move the mail into a larger buffer with
 * lockmgr_enlarge_mail and go on there, oldest first. Nothing is lost, and the
 * guarantee still holds: the steps that were accepted would have led a lock
 * manager of that capacity to the same state. If 4096 messages are not enough,
 * only a new start is left. A drain looks at the oldest message alone; one
 * behind it may still fit and make room. Under Rule 1 you may deliver that one
 * with lockmgr_deliver; under Rule 2 enlarge the mail.
 *
 *
 * VERSIONS
 *
 * LOCKMGR_VERSION_MAJOR, _MINOR and _PATCH number the interface and the rules.
 * Before 1.0 a new minor number may lengthen an argument list or an answer, or
 * change a rule: recompile. Callers that start with lockmgr_options keep
 * compiling. What is guaranteed is proved for a lock manager that one minor
 * version has served from its start on. For this 0.2 to 0.4 count as one, and
 * 0.5 and 0.6 as another, since calls were added and no rule changed between
 * them. From 0.5 on tables have ranks, and the rules read them.
 *
 * LOCKMGR_LAYOUT_VERSION numbers the bytes of table and mail. The buffers do
 * not carry it. If you store or send them, store that number and
 * LOCKMGR_VERSION beside them, and go on only with a library of the same
 * layout, major and minor number, 0.2 to 0.4 and 0.5 to 0.6 again counting as
 * one. There is no conversion: let the sessions end under the old version and
 * start anew under the new one. This holds for all that was stored under 0.1 to
 * 0.4, which has layout 1.
 * Buffers of another layout are no danger, since every call judges them, and
 * most are refused with LOCKMGR_BAD_SIZE; but do not rely on it.
 */
#ifndef LOCKMGR_H
#define LOCKMGR_H

#include <stddef.h>
#include <stdint.h>

#ifdef __cplusplus
extern "C" {
#endif

/* ---- Version ------------------------------------------------------------ */

#define LOCKMGR_VERSION_MAJOR 0
#define LOCKMGR_VERSION_MINOR 6
#define LOCKMGR_VERSION_PATCH 4
#define LOCKMGR_VERSION "0.6.4"

/* One number that grows with the version. */
#define LOCKMGR_VERSION_NUMBER \
    (LOCKMGR_VERSION_MAJOR * 10000 + LOCKMGR_VERSION_MINOR * 100 + LOCKMGR_VERSION_PATCH)

/* The version of the byte layout of table and mail. */
#define LOCKMGR_LAYOUT_VERSION 2

/* ---- Bounds and sizes --------------------------------------------------- */

#define LOCKMGR_MAX_SESSIONS 64   /* sessions: 1 to 64 */
#define LOCKMGR_MAX_ITEMS 64      /* items: 1 to 64 */
#define LOCKMGR_MAX_CAPACITY 4096 /* messages in the mailbox: 1 to 4096 */
#define LOCKMGR_MAX_TEXT 3045     /* bytes of the text of a cycle, at most */

/* Bytes of a table for so many sessions and items, of a mail for so many
 * messages. Constant expressions if the arguments are constants. */
#define LOCKMGR_TABLE_SIZE(sessions, items) LOCKMGR_RANKS_END(sessions, items)
#define LOCKMGR_MAIL_SIZE(capacity) LOCKMGR_BODY_PLACE(capacity, capacity)

/* A capacity with which no delivery is refused for lack of room, if one of the
 * two rules above is kept from the start on: proved for Rule 1, tried for
 * Rule 2. */
#define LOCKMGR_CAPACITY(sessions, items) \
    (6 * LOCKMGR_CAST_(size_t, sessions) + LOCKMGR_CAST_(size_t, items) + 1)

/* ---- Layout of the buffers --------------------------------------------- */

/*
 * Only code that reads or writes the bytes itself needs these names.
 *
 * The table: a header with the number of sessions and of items, then the
 * session records, then the item records, then the ranks, a byte for each
 * session. The mail: a header with the capacity and the count, then for each
 * message its route, then for each message its body; messages stand in order of
 * sending, and unused places are zero. All numbers are little-endian.
 *
 * A table is well-formed if the stages are 1 to 6; an item is awaited in the
 * stages 2, 4 and 5 and only there; no held bit, junior or holder is above the
 * numbers there are; the sessions of a wait queue are distinct and none is the
 * holder; what is unused is zero; and the ranks are as SENIORITY says. A mail
 * is well-formed if its count is at most its capacity; directions, sessions,
 * items and kinds are in bounds; a kind travels in its direction; a and b are
 * sessions in probes, cleans and aborts and else 0; an abort is addressed to
 * its victim; and what is unused is zero.
 */

/* Bytes of the table's header, and of each record. */
#define LOCKMGR_TABLE_SESSIONS 0 /* number of sessions (1 byte) */
#define LOCKMGR_TABLE_ITEMS 1    /* number of items (1) */
#define LOCKMGR_TABLE_HEADER 2

#define LOCKMGR_SESSION_STAGE 0   /* stage (1) */
#define LOCKMGR_SESSION_AWAITED 1 /* awaited item or 0 (1) */
#define LOCKMGR_SESSION_HELD 2    /* held items, bit k-1 is item k (8) */
#define LOCKMGR_SESSION_JUNIORS \
    10 /* junior of the stored probe of initiator 1,
                                    * 2, ..., or 0 where none is (64) */
#define LOCKMGR_SESSION_SIZE 74

#define LOCKMGR_ITEM_HOLDER 0       /* holder or 0 (1) */
#define LOCKMGR_ITEM_QUEUE_LENGTH 1 /* length of the wait queue (1) */
#define LOCKMGR_ITEM_QUEUE 2        /* waiting sessions in order of arrival (64) */
#define LOCKMGR_ITEM_SIZE 66

/* Bytes of the mail's header, of a route and of a body. */
#define LOCKMGR_MAIL_CAPACITY 0 /* capacity (2) */
#define LOCKMGR_MAIL_COUNT 2    /* count (2) */
#define LOCKMGR_MAIL_HEADER 4

#define LOCKMGR_ROUTE_DIRECTION 0 /* enum lockmgr_direction (1) */
#define LOCKMGR_ROUTE_SESSION 1   /* session (1) */
#define LOCKMGR_ROUTE_ITEM 2      /* item (1) */
#define LOCKMGR_ROUTE_SIZE 3

#define LOCKMGR_BODY_KIND 0 /* enum lockmgr_kind (1) */
#define LOCKMGR_BODY_A 1    /* a (1) */
#define LOCKMGR_BODY_B 2    /* b (1) */
#define LOCKMGR_BODY_SIZE 3

/* Where a record begins; sessions and items count from 1. */
#define LOCKMGR_SESSION_PLACE(session) \
    (LOCKMGR_TABLE_HEADER + LOCKMGR_SESSION_SIZE * (LOCKMGR_CAST_(size_t, session) - 1))
#define LOCKMGR_ITEM_PLACE(sessions, item) \
    (LOCKMGR_SESSION_PLACE(LOCKMGR_CAST_(size_t, sessions) + 1) + \
     LOCKMGR_ITEM_SIZE * (LOCKMGR_CAST_(size_t, item) - 1))

/* Where the item records end. */
#define LOCKMGR_ITEMS_END(sessions, items) \
    LOCKMGR_ITEM_PLACE(sessions, LOCKMGR_CAST_(size_t, items) + 1)

/* Where the ranks begin, with that of session 1, and where they end. */
#define LOCKMGR_RANKS_PLACE(sessions, items) LOCKMGR_ITEMS_END(sessions, items)
#define LOCKMGR_RANKS_END(sessions, items) \
    (LOCKMGR_RANKS_PLACE(sessions, items) + LOCKMGR_CAST_(size_t, sessions))

/* Where the route and the body of a message begin; places count from 0. */
#define LOCKMGR_ROUTE_PLACE(place) \
    (LOCKMGR_MAIL_HEADER + LOCKMGR_ROUTE_SIZE * LOCKMGR_CAST_(size_t, place))
#define LOCKMGR_BODY_PLACE(capacity, place) \
    (LOCKMGR_ROUTE_PLACE(capacity) + LOCKMGR_BODY_SIZE * LOCKMGR_CAST_(size_t, place))

/* A cast that neither C nor C++ warns of. */
#ifdef __cplusplus
#define LOCKMGR_CAST_(type, value) (static_cast<type>(value))
#else
#define LOCKMGR_CAST_(type, value) ((type)(value))
#endif

/* ---- Numbers ----------------------------------------------------------- */

/* What a step does. */
enum lockmgr_verb {
    /* The session sends a request to the item, then its stored probes, and
     * waits. */
    LOCKMGR_REQUEST = 1,
    /* The session sends a release to the item, no longer holds it, and
     * shrinks from now on. */
    LOCKMGR_RELEASE = 2,
    /* The earliest message from the session to the item is delivered. */
    LOCKMGR_DELIVER_TO_ITEM = 3,
    /* The earliest message from the item to the session is delivered. */
    LOCKMGR_DELIVER_TO_SESSION = 4
};

/*
 * Why a call was refused: the first cause that holds is answered. All other
 * fields of a refused answer are 0, and the buffers are as they were.
 *
 * Each call judges its own causes, and in its own order; the numbers tell none:
 *
 *   lockmgr_start        2, 14
 *   lockmgr_step         1, 2, 3, 4, 5, 6, 7, 8, 9
 *   lockmgr_drain        2, 3, 4
 *   lockmgr_reopen       2, 3, 4, 5, 15
 *   lockmgr_report       2, 3, 5
 *   lockmgr_cycle_text   2, 3, 5, 10, 11
 *
 * No call gives 12 or 13: they are what the statement program prints in place
 * of a statement, 12 where both hold.
 */
enum lockmgr_refusal {
    /* The call was accepted. */
    LOCKMGR_ACCEPTED = 0,
    /* Step: the verb is not 1 to 4. */
    LOCKMGR_BAD_VERB = 1,
    /* Start: a number of sessions, items or messages is 0 or above its bound,
     * or table, mail or list of ranks has not the length that belongs to them.
     * Step, drain, reopen: the same of the numbers that the two buffers
     * themselves carry. Report, cycle text: the same of the table. */
    LOCKMGR_BAD_SIZE = 2,
    /* Step, drain, reopen, report, cycle text: the table is not well-formed. */
    LOCKMGR_BAD_TABLE = 3,
    /* Step, drain, reopen: the mail is not well-formed. */
    LOCKMGR_BAD_MAIL = 4,
    /* Step: the session or the item is 0 or above the number that there are.
     * Reopen, report, cycle text: the same of the session. */
    LOCKMGR_BAD_NUMBER = 5,
    /* Step: a request by a session that is not growing, or a release by one
     * that is neither growing nor shrinking. */
    LOCKMGR_WRONG_STAGE = 6,
    /* Step: a request for an item that the session holds, or a release of an
     * item that it does not hold. */
    LOCKMGR_WRONG_ITEM = 7,
    /* Step: a delivery, and no message stands on that route. */
    LOCKMGR_NO_MESSAGE = 8,
    /* Step: the messages that it sends do not fit into the mail. A message
     * that is delivered makes room for one. */
    LOCKMGR_MAIL_FULL = 9,
    /* Cycle text: the session lies on no cycle. */
    LOCKMGR_NO_CYCLE = 10,
    /* Cycle text: the buffer is shorter than the text. */
    LOCKMGR_SHORT_BUFFER = 11,
    /* Statement: the list has not 1 to 366 days, or not the length that belongs
     * to them, or on some day more sessions were rolled back than took part. */
    LOCKMGR_BAD_LIST = 12,
    /* Statement: no session took part on any day. */
    LOCKMGR_NOBODY = 13,
    /* Start: the ranks are not the numbers 1 to S, none missing and none twice.
     * In a table such ranks are LOCKMGR_BAD_TABLE. */
    LOCKMGR_BAD_RANKS = 14,
    /* Reopen: the work of the session is not over, or a message, a wait queue,
     * a holder or a stored probe still names it. */
    LOCKMGR_IN_USE = 15
};

/* Stages of a session; see above. */
enum lockmgr_stages {
    LOCKMGR_GROWING = 1,
    LOCKMGR_WAITING = 2,
    LOCKMGR_SHRINKING = 3,
    LOCKMGR_CLEANING = 4,
    LOCKMGR_WITHDRAWING = 5,
    LOCKMGR_ROLLED_BACK = 6
};

/* Directions of a message. */
enum lockmgr_direction {
    LOCKMGR_TO_ITEM = 1,   /* from a session to an item */
    LOCKMGR_TO_SESSION = 2 /* from an item to a session */
};

/* Kinds of messages. The comment names a and b where the kind has them; with
 * the other kinds both are 0. */
enum lockmgr_kind {
    LOCKMGR_MSG_REQUEST = 1,     /* to an item */
    LOCKMGR_MSG_RELEASE = 2,     /* to an item */
    LOCKMGR_MSG_PROBE = 3,       /* both ways; initiator, junior */
    LOCKMGR_MSG_CLEAN = 4,       /* both ways; victim, initiator */
    LOCKMGR_MSG_REBROADCAST = 5, /* to an item */
    LOCKMGR_MSG_WITHDRAW = 6,    /* to an item */
    LOCKMGR_MSG_GRANT = 7,       /* to a session */
    LOCKMGR_MSG_RESEND = 8,      /* to a session */
    LOCKMGR_MSG_ABORT = 9,       /* to a session; victim, initiator */
    LOCKMGR_MSG_WITHDRAWN = 10   /* to a session */
};

/* What a delivery meant for the session of its message. */
enum lockmgr_event {
    /* Nothing that its user has to know. */
    LOCKMGR_EVENT_NONE = 0,
    /* The session holds the item of the message from now on. */
    LOCKMGR_EVENT_GRANTED = 1,
    /* The session is a victim and withdraws: undo what it has changed now,
     * before the next delivery. It still holds its items. */
    LOCKMGR_EVENT_UNDO = 2,
    /* The session is rolled back; its releases are on their way. */
    LOCKMGR_EVENT_ROLLED_BACK = 3
};

/* Why a drain ended: the first that applies, in this order. */
enum lockmgr_ending {
    /* The mail is empty. */
    LOCKMGR_DRAIN_EMPTY = 1,
    /* The delivery of the oldest message would be refused with
     * LOCKMGR_MAIL_FULL. */
    LOCKMGR_DRAIN_FULL = 2,
    /* As many deliveries are made as the limit allows. */
    LOCKMGR_DRAIN_LIMITED = 3
};

/* ---- Answers ------------------------------------------------------------ */

/* The answer of a step. */
typedef struct {
    uint8_t refusal;   /* enum lockmgr_refusal; 0 if the step was accepted */
    uint8_t sent;      /* how many messages the step put into the mail */
    uint8_t closed;    /* 1 if this step put the session into a wait queue and
                        * it lies on a cycle since; else 0 */
    uint8_t victim;    /* if this step declared a deadlock, the session that
                        * will be rolled back; else 0 */
    uint8_t initiator; /* if this step declared a deadlock, the session whose
                        * probe came back; else 0 */
} lockmgr_answer;

/* The answer of a drain. */
typedef struct {
    uint8_t refusal; /* enum lockmgr_refusal; 0 if the drain was accepted */
    uint64_t made;   /* how many deliveries it made */
    uint8_t ending;  /* enum lockmgr_ending; 0 if the drain was refused */
} lockmgr_drained;

/* The answer of a report. */
typedef struct {
    uint8_t refusal; /* enum lockmgr_refusal; 0 if the report was accepted */
    uint8_t length;  /* how many sessions the cycle has on which the session
                      * lies; 0 if it lies on none */
} lockmgr_cycle;

/* The answer of a cycle text. */
typedef struct {
    uint8_t refusal; /* enum lockmgr_refusal; 0 if the text was written */
    uint16_t length; /* how many bytes the text has; 0 if it was refused */
} lockmgr_text;

/* ---- Calls ------------------------------------------------------------- */

/*
 * Starts a lock manager: all sessions grow and hold nothing, all items are
 * free, the mail is empty, and byte k - 1 of the list is the rank of session k
 * from now on. Every byte of table and mail is written; what they held before
 * does not matter. The list is only read.
 *
 * Answers 0, or LOCKMGR_BAD_SIZE if a number is out of bounds or
 *     ranks_len != sessions or
 *     table_len != LOCKMGR_TABLE_SIZE(sessions, items) or
 *     mail_len != LOCKMGR_MAIL_SIZE(capacity),
 * else LOCKMGR_BAD_RANKS if the ranks are not as SENIORITY says.
 */
/* clang-format off */
uint8_t lockmgr_start(uint64_t sessions, uint64_t items, uint64_t capacity,
                      const uint8_t *ranks, size_t ranks_len,
                      uint8_t *table, size_t table_len,
                      uint8_t *mail, size_t mail_len);
/* clang-format on */

/*
 * One step of the session with the item; verb is one of enum lockmgr_verb.
 *
 * A message that its receiver has no use for (a late grant, say) is dropped:
 * the step is accepted, sends nothing, and the message is gone.
 *
 * One cycle may be declared more than once, by different messages; the
 * victim is rolled back once.
 */
/* clang-format off */
lockmgr_answer lockmgr_step(uint64_t verb, uint64_t session, uint64_t item,
                            uint8_t *table, size_t table_len,
                            uint8_t *mail, size_t mail_len);
/* clang-format on */

/*
 * Delivers the oldest message of the mail, again and again, until one of enum
 * lockmgr_ending applies. Each delivery is the step on the route of that
 * message, and the bytes in the end are those that the same steps leave. The
 * buffers are judged once, before any delivery, and not at each of them.
 *
 * After LOCKMGR_DRAIN_LIMITED call again. LOCKMGR_DRAIN_FULL is kept away by
 * the rules of ROOM IN THE MAIL (proved for Rule 1, tried for Rule 2), where it
 * is also told what to do about it. A limit of 0 delivers nothing and tells which
 * ending applies.
 *
 * What it tells. The answers of its steps (sent, closed, victim, initiator) are
 * not kept. Stages tell the rest: a session that was LOCKMGR_WAITING before and
 * is LOCKMGR_GROWING now holds the item that it awaited; one that has come to
 * LOCKMGR_ROLLED_BACK was a victim; one that is LOCKMGR_WAITING still waits.
 * After LOCKMGR_DRAIN_FULL or LOCKMGR_DRAIN_LIMITED a session may also be
 * LOCKMGR_CLEANING or LOCKMGR_WITHDRAWING: a victim that is not rolled back
 * yet. How many cycles were closed, and who declared them, cannot be read
 * afterwards; deliver one by one for that. When to undo is told above.
 *
 * When it ends. On a lock manager that was started, whatever the calls since,
 * a drain makes at most D deliveries, and with a limit above D it does not end
 * with LOCKMGR_DRAIN_LIMITED. With S sessions, M items and n messages in the
 * mail when it is called,
 *
 *     D = S (K S + 4 S^2 + M H) + n K (S + 1)
 *     where H = 2 S^2 + 2 S + 2 and K = M H + 2 S^2 + 4 + H
 *
 * which is never above 10^15, and 148,483,661,824 for 64 sessions, 64 items and
 * 4096 messages; lockmgr_drain_bound computes it. This is proved: every
 * delivery makes a number smaller that weighs the messages on their way, the
 * waiting sessions, and the probes that would still be news. A probe is passed
 * on only where it is news, which for each initiator it can be at most S times
 * at a session; a clean goes once round its cycle, past at most S waits; a
 * session is made a victim at most once while it waits; a release, a
 * rebroadcast or a clean at an item reaches a queue of at most S sessions, with
 * a probe and a resend for each. Real drains are far shorter: one that closes a
 * cycle of 64 sessions, finds it and dissolves it makes 8198 deliveries. Under
 * Rule 1 of ROOM IN THE MAIL, in a mailbox of LOCKMGR_CAPACITY messages or more, a
 * drain with a limit above D empties the mail, which is proved too.
 *
 * Forged buffers, to which no start leads, can hold a clean that circles for
 * ever. There only the limit ends a drain, so give one if you do not know where
 * your buffers come from.
 */
/* clang-format off */
lockmgr_drained lockmgr_drain(uint64_t limit,
                              uint8_t *table, size_t table_len,
                              uint8_t *mail, size_t mail_len);
/* clang-format on */

/*
 * Reopens a session: it grows, awaits and holds nothing and stores no probes. It
 * keeps its rank, and all other bytes stay as they were. The mail is only read.
 *
 * Answers 0; or LOCKMGR_BAD_SIZE, LOCKMGR_BAD_TABLE, LOCKMGR_BAD_MAIL or
 * LOCKMGR_BAD_NUMBER; else LOCKMGR_IN_USE if it is not allowed, as REOPENING A
 * SESSION says.
 *
 * On forged buffers the same conditions are judged. The record of the session
 * itself is looked at too: a stored probe in it that names the session is
 * LOCKMGR_IN_USE; others, and held items at LOCKMGR_ROLLED_BACK, are cleared.
 */
/* clang-format off */
uint8_t lockmgr_reopen(uint64_t session,
                       uint8_t *table, size_t table_len,
                       const uint8_t *mail, size_t mail_len);
/* clang-format on */

/*
 * The length of the cycle on which the session lies, or 0. A session waits for
 * the holder of the item in whose wait queue it stands (of several such items,
 * the lowest-numbered that is held); it lies on a cycle if these waits lead
 * from it back to itself. A session that waits for members of a cycle, but is
 * not one of them, has 0. Changes nothing.
 *
 *   lockmgr_cycle cycle = lockmgr_report(1, table, sizeof table);
 *   if (cycle.refusal == LOCKMGR_ACCEPTED && cycle.length > 0)
 *       printf("deadlock among %u sessions\n", (unsigned)cycle.length);
 */
lockmgr_cycle lockmgr_report(uint64_t session, const uint8_t *table, size_t table_len);

/*
 * Writes the cycle on which the session lies in words, at the start of the
 * buffer: a line for each member, from the most senior on and once round, with
 * the item at which it waits and the holder of that item, as in lockmgr_report.
 *
 *   session 1 waits for item 2 held by session 2
 *   session 2 waits for item 1 held by session 1
 *
 * Each line ends with a line feed, the last one too. No zero byte follows, and
 * bytes behind the text stay as they were. It is the same text whichever member
 * is asked about, and no two cycles have the same: each three numbers in it are
 * a member, its item and the holder.
 *
 * Nothing is written if the text does not fit as a whole. It has
 * LOCKMGR_MAX_TEXT bytes at most, with 64 sessions on the cycle. All this is
 * proved.
 *
 * When to ask: right after a step that declared a deadlock. On a lock manager
 * that was started, answer.victim and answer.initiator then lie on one cycle,
 * which is proved too; the deliveries that follow dissolve it. Who only drains
 * cannot ask in between.
 *
 *   uint8_t text[LOCKMGR_MAX_TEXT];
 *   if (answer.victim != 0) {
 *       lockmgr_text cycle = lockmgr_cycle_text(answer.victim, table, sizeof table,
 *                                               text, sizeof text);
 *       fwrite(text, 1, cycle.length, stdout);
 *   }
 */
/* clang-format off */
lockmgr_text lockmgr_cycle_text(uint64_t session,
                                const uint8_t *table, size_t table_len,
                                uint8_t *text, size_t text_len);
/* clang-format on */

/* ---- Helpers ------------------------------------------------------------ */

/*
 * What follows is written in this header, on top of the six calls or beside
 * them. It is tested but no part of the proved library.
 */

/* The version number of this header, LOCKMGR_VERSION_NUMBER. The library is
 * not asked; the name of the shared one ends in its version. */
static inline unsigned lockmgr_version(void)
{
    return LOCKMGR_VERSION_NUMBER;
}

/*
 * Numbers as text, in lower case: "bad size" for LOCKMGR_BAD_SIZE, "deliver to
 * item", "rolled back", "withdrawn", "granted", "limited". "unknown" for a
 * number that is none. The text is constant and needs no freeing.
 */
static inline const char *lockmgr_text_(const char *const *texts, size_t count, uint64_t number)
{
    return number < count ? texts[number] : "unknown";
}

static inline const char *lockmgr_refusal_text(uint64_t refusal)
{
    static const char *const texts[] = {
        "accepted",    "bad verb",   "bad size",   "bad table", "bad mail", "bad number",
        "wrong stage", "wrong item", "no message", "mail full", "no cycle", "short buffer",
        "bad list",    "nobody",     "bad ranks",  "in use",
    };
    return lockmgr_text_(texts, sizeof texts / sizeof texts[0], refusal);
}

static inline const char *lockmgr_verb_text(uint64_t verb)
{
    static const char *const texts[] = {
        "unknown", "request", "release", "deliver to item", "deliver to session",
    };
    return lockmgr_text_(texts, sizeof texts / sizeof texts[0], verb);
}

static inline const char *lockmgr_stage_text(uint64_t stage)
{
    static const char *const texts[] = {
        "unknown", "growing", "waiting", "shrinking", "cleaning", "withdrawing", "rolled back",
    };
    return lockmgr_text_(texts, sizeof texts / sizeof texts[0], stage);
}

static inline const char *lockmgr_kind_text(uint64_t kind)
{
    static const char *const texts[] = {
        "unknown",  "request", "release", "probe", "clean",     "rebroadcast",
        "withdraw", "grant",   "resend",  "abort", "withdrawn",
    };
    return lockmgr_text_(texts, sizeof texts / sizeof texts[0], kind);
}

static inline const char *lockmgr_event_text(uint64_t event)
{
    static const char *const texts[] = {"nothing", "granted", "undo", "rolled back"};
    return lockmgr_text_(texts, sizeof texts / sizeof texts[0], event);
}

static inline const char *lockmgr_ending_text(uint64_t ending)
{
    static const char *const texts[] = {"unknown", "empty", "full", "limited"};
    return lockmgr_text_(texts, sizeof texts / sizeof texts[0], ending);
}

/*
 * Starting by options. lockmgr_default_options fills in plain values for so
 * many sessions and items; change the fields that you want otherwise. A later
 * version may add fields, with values that leave the rest as it was, so do not
 * fill in the struct yourself.
 */
typedef struct {
    uint64_t sessions;
    uint64_t items;
    uint64_t capacity;                   /* plain: LOCKMGR_CAPACITY(sessions, items) */
    uint8_t ranks[LOCKMGR_MAX_SESSIONS]; /* element k - 1 is the rank of session
                                          * k; plain: 1, 2, 3, ... */
} lockmgr_options;

static inline lockmgr_options lockmgr_default_options(uint64_t sessions, uint64_t items)
{
    lockmgr_options options;
    unsigned k;
    options.sessions = sessions;
    options.items = items;
    options.capacity = LOCKMGR_CAPACITY(sessions, items);
    for (k = 0; k < LOCKMGR_MAX_SESSIONS; k++)
        options.ranks[k] = LOCKMGR_CAST_(uint8_t, k + 1);
    return options;
}

/*
 * lockmgr_start with the numbers of the options and as many of the ranks as
 * there are sessions, from the first on; the same answers. A null pointer, with
 * any length, is refused with LOCKMGR_BAD_SIZE; so are options for numbers out
 * of bounds.
 */
static inline uint8_t lockmgr_start_with(const lockmgr_options *options, uint8_t *table,
                                         size_t table_len, uint8_t *mail, size_t mail_len)
{
    size_t ranks_len = LOCKMGR_MAX_SESSIONS;
    if (options == NULL || table == NULL || mail == NULL)
        return LOCKMGR_BAD_SIZE;
    if (options->sessions < LOCKMGR_MAX_SESSIONS)
        ranks_len = LOCKMGR_CAST_(size_t, options->sessions);
    return lockmgr_start(options->sessions, options->items, options->capacity, options->ranks,
                         ranks_len, table, table_len, mail, mail_len);
}

/* ---- Reading the buffers ------------------------------------------------ */

/*
 * Use these on buffers that a call has accepted, with numbers in bounds: they
 * check nothing.
 */

/* The stage of a session: enum lockmgr_stages. */
static inline unsigned lockmgr_stage(const uint8_t *table, unsigned session)
{
    return table[LOCKMGR_SESSION_PLACE(session) + LOCKMGR_SESSION_STAGE];
}

/* The rank of a session; the lower of two ranks is the senior one. */
static inline unsigned lockmgr_rank(const uint8_t *table, unsigned session)
{
    return table[LOCKMGR_RANKS_PLACE(table[LOCKMGR_TABLE_SESSIONS], table[LOCKMGR_TABLE_ITEMS]) +
                 session - 1];
}

/* The item that a session waits for, or 0. */
static inline unsigned lockmgr_awaited(const uint8_t *table, unsigned session)
{
    return table[LOCKMGR_SESSION_PLACE(session) + LOCKMGR_SESSION_AWAITED];
}

/* 1 if the session holds the item, that is, has its grant; else 0. */
static inline int lockmgr_holds(const uint8_t *table, unsigned session, unsigned item)
{
    const uint8_t *held = table + LOCKMGR_SESSION_PLACE(session) + LOCKMGR_SESSION_HELD;
    return held[(item - 1) / 8] >> ((item - 1) % 8) & 1;
}

/* 1 if the work of a session is over: it has released everything that it held,
 * or was rolled back. Else 0. */
static inline int lockmgr_finished(const uint8_t *table, unsigned session)
{
    const uint8_t *held = table + LOCKMGR_SESSION_PLACE(session) + LOCKMGR_SESSION_HELD;
    unsigned k, any = 0;
    for (k = 0; k < LOCKMGR_SESSION_JUNIORS - LOCKMGR_SESSION_HELD; k++)
        any |= held[k];
    return lockmgr_stage(table, session) == LOCKMGR_ROLLED_BACK ||
           (lockmgr_stage(table, session) == LOCKMGR_SHRINKING && any == 0);
}

/* The record of an item. */
static inline const uint8_t *lockmgr_item_(const uint8_t *table, unsigned item)
{
    return table + LOCKMGR_ITEM_PLACE(table[LOCKMGR_TABLE_SESSIONS], item);
}

/* The holder of an item as the item sees it, or 0. The item knows its holder
 * from the moment it sends the grant. */
static inline unsigned lockmgr_holder(const uint8_t *table, unsigned item)
{
    return lockmgr_item_(table, item)[LOCKMGR_ITEM_HOLDER];
}

/* How many sessions stand in the wait queue of an item. */
static inline unsigned lockmgr_queue_length(const uint8_t *table, unsigned item)
{
    return lockmgr_item_(table, item)[LOCKMGR_ITEM_QUEUE_LENGTH];
}

/* The session at a place of the wait queue. At place 0 stands the one that came
 * first, who need not be the next holder. */
static inline unsigned lockmgr_queue_session(const uint8_t *table, unsigned item, unsigned place)
{
    return lockmgr_item_(table, item)[LOCKMGR_ITEM_QUEUE + place];
}

/* How many messages the mail can hold, and how many there are. */
static inline unsigned lockmgr_mail_capacity(const uint8_t *mail)
{
    return mail[LOCKMGR_MAIL_CAPACITY] + 256u * mail[LOCKMGR_MAIL_CAPACITY + 1];
}

static inline unsigned lockmgr_mail_count(const uint8_t *mail)
{
    return mail[LOCKMGR_MAIL_COUNT] + 256u * mail[LOCKMGR_MAIL_COUNT + 1];
}

/* A message in the mail. */
typedef struct {
    uint8_t direction; /* enum lockmgr_direction */
    uint8_t session;
    uint8_t item;
    uint8_t kind; /* enum lockmgr_kind */
    uint8_t a;
    uint8_t b;
} lockmgr_message;

/* The message at a place of the mail, 0 being the oldest. */
static inline lockmgr_message lockmgr_mail_message(const uint8_t *mail, unsigned place)
{
    const uint8_t *route = mail + LOCKMGR_ROUTE_PLACE(place);
    const uint8_t *body = mail + LOCKMGR_BODY_PLACE(lockmgr_mail_capacity(mail), place);
    lockmgr_message message;
    message.direction = route[LOCKMGR_ROUTE_DIRECTION];
    message.session = route[LOCKMGR_ROUTE_SESSION];
    message.item = route[LOCKMGR_ROUTE_ITEM];
    message.kind = body[LOCKMGR_BODY_KIND];
    message.a = body[LOCKMGR_BODY_A];
    message.b = body[LOCKMGR_BODY_B];
    return message;
}

/* The verb that delivers on the route of a message. */
static inline unsigned lockmgr_deliver_verb(lockmgr_message message)
{
    return message.direction == LOCKMGR_TO_ITEM ? LOCKMGR_DELIVER_TO_ITEM
                                                : LOCKMGR_DELIVER_TO_SESSION;
}

/* ---- Delivering, and more room ------------------------------------------ */

/* 1 if the mail has the length that belongs to its capacity, and no more
 * messages than that. */
static inline int lockmgr_mail_readable_(const uint8_t *mail, size_t mail_len)
{
    return mail != NULL && mail_len >= LOCKMGR_MAIL_HEADER && lockmgr_mail_capacity(mail) >= 1 &&
           lockmgr_mail_capacity(mail) <= LOCKMGR_MAX_CAPACITY &&
           mail_len == LOCKMGR_MAIL_SIZE(lockmgr_mail_capacity(mail)) &&
           lockmgr_mail_count(mail) <= lockmgr_mail_capacity(mail);
}

/* The answer of lockmgr_deliver. */
typedef struct {
    lockmgr_answer answer;   /* the answer of the step */
    lockmgr_message message; /* the message that was delivered; all 0 if the
                              * step was refused */
    uint8_t event;           /* enum lockmgr_event: what it meant for
                              * message.session */
} lockmgr_delivery;

/*
 * Delivers the message at a place of the mail, 0 being the oldest; or, if
 * others stand before it on its route, the earliest of them. The answer tells
 * which message it was and what it meant for its session, so that nobody has
 * to compare stages.
 *
 * Refused like the step that it makes. LOCKMGR_NO_MESSAGE if the mail has no
 * such place (the mail is empty, say). A null pointer, with any length, is
 * refused with LOCKMGR_BAD_SIZE.
 */
static inline lockmgr_delivery lockmgr_deliver(uint64_t place, uint8_t *table, size_t table_len,
                                               uint8_t *mail, size_t mail_len)
{
    lockmgr_delivery delivery = {{0, 0, 0, 0, 0}, {0, 0, 0, 0, 0, 0}, LOCKMGR_EVENT_NONE};
    lockmgr_message message, first;
    unsigned k = 0, before = 0, after;
    if (table == NULL || mail == NULL) {
        delivery.answer.refusal = LOCKMGR_BAD_SIZE;
        return delivery;
    }
    if (!lockmgr_mail_readable_(mail, mail_len) || place >= lockmgr_mail_count(mail)) {
        /* A step of session 0 does nothing, and answers what is wrong with the
         * buffers if anything is. */
        delivery.answer =
            lockmgr_step(LOCKMGR_DELIVER_TO_ITEM, 0, 0, table, table_len, mail, mail_len);
        if (delivery.answer.refusal == LOCKMGR_BAD_NUMBER)
            delivery.answer.refusal = LOCKMGR_NO_MESSAGE;
        return delivery;
    }
    message = lockmgr_mail_message(mail, LOCKMGR_CAST_(unsigned, place));
    do
        first = lockmgr_mail_message(mail, k++);
    while (first.direction != message.direction || first.session != message.session ||
           first.item != message.item);
    if (first.session > 0 && LOCKMGR_SESSION_PLACE(first.session + 1) <= table_len)
        before = lockmgr_stage(table, first.session);
    delivery.answer = lockmgr_step(lockmgr_deliver_verb(first), first.session, first.item, table,
                                   table_len, mail, mail_len);
    if (delivery.answer.refusal != LOCKMGR_ACCEPTED)
        return delivery;
    delivery.message = first;
    after = lockmgr_stage(table, first.session);
    if (before == LOCKMGR_WAITING && after == LOCKMGR_GROWING)
        delivery.event = LOCKMGR_EVENT_GRANTED;
    else if (before == LOCKMGR_CLEANING && after == LOCKMGR_WITHDRAWING)
        delivery.event = LOCKMGR_EVENT_UNDO;
    else if (before == LOCKMGR_WITHDRAWING && after == LOCKMGR_ROLLED_BACK)
        delivery.event = LOCKMGR_EVENT_ROLLED_BACK;
    return delivery;
}

/* The D of lockmgr_drain, for numbers in bounds. */
static inline uint64_t lockmgr_drain_bound(uint64_t sessions, uint64_t items, uint64_t messages)
{
    uint64_t square = sessions * sessions;
    uint64_t h = 2 * square + 2 * sessions + 2;
    uint64_t k = items * h + 2 * square + 4 + h;
    return sessions * (k * sessions + 4 * square + items * h) + messages * k * (sessions + 1);
}

/*
 * Copies a mail into a buffer with room for more messages. The table stays as
 * it is and goes on with the new mail in place of the old one. Every byte of
 * the new buffer is written; the two must not overlap.
 *
 * Answers 0, or LOCKMGR_BAD_SIZE if a pointer is null, the mail has not the
 * length of its capacity or has more messages than that, the new capacity is
 * below the old one or above LOCKMGR_MAX_CAPACITY, or
 *     larger_len != LOCKMGR_MAIL_SIZE(capacity).
 * Then nothing is written. The messages are not judged here; the next call that
 * is lent the mail judges them.
 */
static inline uint8_t lockmgr_enlarge_mail(const uint8_t *mail, size_t mail_len, uint64_t capacity,
                                           uint8_t *larger, size_t larger_len)
{
    size_t k, old_capacity, count;
    if (!lockmgr_mail_readable_(mail, mail_len) || larger == NULL)
        return LOCKMGR_BAD_SIZE;
    old_capacity = lockmgr_mail_capacity(mail);
    count = lockmgr_mail_count(mail);
    if (capacity < old_capacity || capacity > LOCKMGR_MAX_CAPACITY ||
        larger_len != LOCKMGR_MAIL_SIZE(capacity))
        return LOCKMGR_BAD_SIZE;
    for (k = 0; k < larger_len; k++)
        larger[k] = 0;
    larger[LOCKMGR_MAIL_CAPACITY] = LOCKMGR_CAST_(uint8_t, capacity % 256);
    larger[LOCKMGR_MAIL_CAPACITY + 1] = LOCKMGR_CAST_(uint8_t, capacity / 256);
    larger[LOCKMGR_MAIL_COUNT] = mail[LOCKMGR_MAIL_COUNT];
    larger[LOCKMGR_MAIL_COUNT + 1] = mail[LOCKMGR_MAIL_COUNT + 1];
    for (k = 0; k < LOCKMGR_ROUTE_SIZE * count; k++)
        larger[LOCKMGR_ROUTE_PLACE(0) + k] = mail[LOCKMGR_ROUTE_PLACE(0) + k];
    for (k = 0; k < LOCKMGR_BODY_SIZE * count; k++)
        larger[LOCKMGR_BODY_PLACE(capacity, 0) + k] = mail[LOCKMGR_BODY_PLACE(old_capacity, 0) + k];
    return LOCKMGR_ACCEPTED;
}

#ifdef __cplusplus
}
#endif

#endif /* LOCKMGR_H */
