/*
 * Threads that share a catalogue: each locks a few items in any order, edits
 * them and lets them go. A session that becomes the victim of a deadlock has
 * its edits undone. Each worker has one session number: after its work, and
 * after a rollback, it reopens the session and goes on with the next piece of
 * work, or tries the same one again.
 *
 *     workers [SECONDS [SEED]]
 *
 * One mutex guards the lock manager. Whoever makes a call holds it, drains the
 * mail and undoes what victims have edited before letting it go. So the mail is
 * empty at every call (rule 1 of the header, under which each drain is proved to
 * empty it again), a session whose work is over can be reopened at once, and
 * nobody learns of a grant before the item is as it should be. A worker that
 * waits sleeps on a condition and looks at the stage of its session. The items
 * themselves are guarded by their locks alone.
 *
 * The exit status is 0 if no two sessions ever edited an item at once, the
 * catalogue has in the end exactly what was committed, and all sessions and
 * items are free again.
 */
#include "lockmgr.h"

#include <pthread.h>
#include <sched.h>
#include <stdio.h>
#include <stdlib.h>
#include <string.h>
#include <time.h>

enum { WORKERS = 6, ITEMS = 8, LOCKS = 3 };

/* The lock manager, and what the mutex guards beside it. */
static pthread_mutex_t mutex = PTHREAD_MUTEX_INITIALIZER;
static pthread_cond_t changed = PTHREAD_COND_INITIALIZER;
static uint8_t table[LOCKMGR_TABLE_SIZE(WORKERS, ITEMS)];
static uint8_t mail[LOCKMGR_MAIL_SIZE(LOCKMGR_CAPACITY(WORKERS, ITEMS))];
static uint8_t before[sizeof table]; /* the table before the last call */
static unsigned workers_started;
static unsigned committed, rolled_back, reopened, overlaps;
static unsigned expected[ITEMS + 1]; /* committed edits of each item */

/* The catalogue. An item belongs to the session that holds its lock. */
static struct {
    unsigned edits;
    unsigned editor; /* the session that edits it, or 0 */
} catalogue[ITEMS + 1];

static void fail(const char *what, const char *why)
{
    printf("%s: %s\n", what, why);
    exit(1);
}

/* Takes back what a victim has edited: all that it held before the call. Nobody
 * who holds these items now knows it yet. */
static void undo(unsigned session)
{
    unsigned item;
    for (item = 1; item <= ITEMS; item++) {
        if (lockmgr_holds(before, session, item)) {
            if (catalogue[item].editor != session)
                overlaps++;
            catalogue[item].edits--;
            catalogue[item].editor = 0;
        }
    }
}

/* A request or a release, and all that follows. Holds the mutex. */
static void perform(unsigned verb, unsigned session, unsigned item)
{
    lockmgr_answer answer;
    lockmgr_drained drained;
    unsigned other;
    memcpy(before, table, sizeof table);
    answer = lockmgr_step(verb, session, item, table, sizeof table, mail, sizeof mail);
    if (answer.refusal != LOCKMGR_ACCEPTED)
        fail(lockmgr_verb_text(verb), lockmgr_refusal_text(answer.refusal));
    drained = lockmgr_drain(UINT64_MAX, table, sizeof table, mail, sizeof mail);
    if (drained.refusal != LOCKMGR_ACCEPTED)
        fail("drain", lockmgr_refusal_text(drained.refusal));
    if (drained.ending != LOCKMGR_DRAIN_EMPTY)
        fail("drain", lockmgr_ending_text(drained.ending));
    for (other = 1; other <= WORKERS; other++) {
        if (lockmgr_stage(before, other) != LOCKMGR_ROLLED_BACK &&
            lockmgr_stage(table, other) == LOCKMGR_ROLLED_BACK) {
            undo(other);
            rolled_back++;
        }
    }
    pthread_cond_broadcast(&changed);
}

/* Waits for an item: 1 if it was granted, 0 if the session was rolled back. */
static int lock_item(unsigned session, unsigned item)
{
    unsigned stage;
    pthread_mutex_lock(&mutex);
    perform(LOCKMGR_REQUEST, session, item);
    while ((stage = lockmgr_stage(table, session)) == LOCKMGR_WAITING)
        pthread_cond_wait(&changed, &mutex);
    pthread_mutex_unlock(&mutex);
    return stage == LOCKMGR_GROWING;
}

/* Edits an item whose lock the session holds; how often another was there. */
static unsigned edit(unsigned session, unsigned item)
{
    unsigned others = catalogue[item].editor != 0;
    catalogue[item].editor = session;
    catalogue[item].edits++;
    sched_yield();
    return others + (catalogue[item].editor != session);
}

/* Reopens a session that has released everything or was rolled back. */
static void reopen(unsigned session)
{
    uint8_t refusal;
    pthread_mutex_lock(&mutex);
    refusal = lockmgr_reopen(session, table, sizeof table, mail, sizeof mail);
    if (refusal != LOCKMGR_ACCEPTED)
        fail("reopen", lockmgr_refusal_text(refusal));
    reopened++;
    pthread_mutex_unlock(&mutex);
}

/* Locks and edits the items one after the other, then lets them go: 1, or 0 if
 * the session was rolled back. */
static int transaction(unsigned session, const unsigned *items)
{
    unsigned k, others = 0;
    for (k = 0; k < LOCKS; k++) {
        if (!lock_item(session, items[k]))
            return 0;
        others += edit(session, items[k]);
    }
    for (k = 0; k < LOCKS; k++)
        catalogue[items[k]].editor = 0;
    pthread_mutex_lock(&mutex);
    overlaps += others;
    committed++;
    for (k = 0; k < LOCKS; k++)
        expected[items[k]]++;
    for (k = 0; k < LOCKS; k++)
        perform(LOCKMGR_RELEASE, session, items[k]);
    pthread_mutex_unlock(&mutex);
    return 1;
}

static unsigned draw(uint32_t *state, unsigned count)
{
    *state = *state * 1664525u + 1013904223u;
    return (*state >> 16) % count;
}

/* The first LOCKS of the items, shuffled. */
static void choose(uint32_t *state, unsigned *items)
{
    unsigned k, other, kept;
    for (k = 0; k < ITEMS; k++)
        items[k] = k + 1;
    for (k = 0; k < LOCKS; k++) {
        other = k + draw(state, ITEMS - k);
        kept = items[k];
        items[k] = items[other];
        items[other] = kept;
    }
}

static uint32_t seed;
static time_t end;

/* One piece of work after the other, each until it is committed, as long as
 * there is time. A junior worker may be rolled back many times; at the latest it
 * gets through when the others have stopped. */
static void *work(void *unused)
{
    unsigned items[ITEMS], session;
    uint32_t state;
    int done;
    pthread_mutex_lock(&mutex);
    session = ++workers_started;
    pthread_mutex_unlock(&mutex);
    state = seed + 7919u * session;
    do {
        choose(&state, items);
        do {
            done = transaction(session, items);
            reopen(session);
        } while (!done);
    } while (time(NULL) < end);
    return unused;
}

/* A lock manager from its start until all workers have stopped. */
static void run(void)
{
    lockmgr_options options = lockmgr_default_options(WORKERS, ITEMS);
    pthread_t threads[WORKERS];
    unsigned k;
    uint8_t refusal = lockmgr_start_with(&options, table, sizeof table, mail, sizeof mail);
    if (refusal != LOCKMGR_ACCEPTED)
        fail("start", lockmgr_refusal_text(refusal));
    for (k = 0; k < WORKERS; k++) {
        if (pthread_create(&threads[k], NULL, work, NULL) != 0) {
            printf("no thread\n");
            exit(1);
        }
    }
    for (k = 0; k < WORKERS; k++)
        pthread_join(threads[k], NULL);
}

int main(int argc, char **argv)
{
    unsigned k, wrong = 0;
    end = time(NULL) + (argc > 1 ? strtol(argv[1], NULL, 10) : 2);
    if (argc > 2)
        seed = strtoul(argv[2], NULL, 10) & 0xFFFFFFFFu;
    run();
    for (k = 1; k <= ITEMS; k++)
        wrong += catalogue[k].edits != expected[k] || catalogue[k].editor != 0 ||
                 lockmgr_holder(table, k) != 0;
    for (k = 1; k <= WORKERS; k++)
        wrong += lockmgr_stage(table, k) != LOCKMGR_GROWING;
    wrong += reopened != committed + rolled_back;
    printf("%d workers with a session each: %u pieces of work committed, %u rollbacks, "
           "%u reopenings\n",
           WORKERS, committed, rolled_back, reopened);
    printf("%u overlaps, %u faults in the end\n", overlaps, wrong);
    return overlaps || wrong;
}
