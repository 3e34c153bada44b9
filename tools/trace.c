/*
 * Tells what happens in a replay: each line of the replay program, and below it
 * what the step did, what it sent to whom, and who waits for whom.
 *
 *     trace INPUT OUTPUT [STEP DOT]
 *
 * INPUT is the input of the replay program, OUTPUT what it printed. The steps
 * are made again with the library; a line that differs from its answer is a
 * failure. With STEP, the waits after that step (0: at the start) are written
 * to the file DOT for Graphviz.
 */
#include "lockmgr.h"

#include <stdarg.h>
#include <stdio.h>
#include <stdlib.h>
#include <string.h>

enum { MAX_STEPS = 4096, INPUT_HEADER = 4, MAX_INPUT = INPUT_HEADER + 3 * MAX_STEPS };

static uint8_t table[LOCKMGR_TABLE_SIZE(LOCKMGR_MAX_SESSIONS, LOCKMGR_MAX_ITEMS)];
static uint8_t mail[LOCKMGR_MAIL_SIZE(LOCKMGR_MAX_CAPACITY)];
static unsigned sessions, items;

static void fail(const char *format, ...)
{
    va_list arguments;
    va_start(arguments, format);
    fflush(stdout);
    fprintf(stderr, "trace: ");
    vfprintf(stderr, format, arguments);
    fprintf(stderr, "\n");
    va_end(arguments);
    exit(1);
}

/* A line without its end; 0 if there is none. */
static int read_line(char *line, int size, FILE *file)
{
    if (fgets(line, size, file) == NULL)
        return 0;
    line[strcspn(line, "\n")] = '\0';
    return 1;
}

static FILE *open_file(const char *name, const char *mode)
{
    FILE *file = fopen(name, mode);
    if (file == NULL) {
        fprintf(stderr, "trace: ");
        perror(name);
        exit(1);
    }
    return file;
}

/* ---- Who waits for whom --------------------------------------------------- */

/* The held item in whose queue a session stands (the lowest-numbered), or 0. */
static unsigned waits_at(unsigned session)
{
    for (unsigned item = 1; item <= items; item++)
        for (unsigned k = 0; k < lockmgr_queue_length(table, item); k++)
            if (lockmgr_holder(table, item) && lockmgr_queue_session(table, item, k) == session)
                return item;
    return 0;
}

static int on_cycle(unsigned session)
{
    size_t length = LOCKMGR_TABLE_SIZE(sessions, items);
    return lockmgr_report(session, table, length).length > 0;
}

static void print_cycle(unsigned session)
{
    unsigned at = session;
    printf("      CYCLE CLOSED:");
    do {
        printf(" session %u waits for", at);
        at = lockmgr_holder(table, waits_at(at));
    } while (at != session);
    printf(" session %u\n", session);
}

/* The waits, if they are others than at the last call. */
static void print_waits(void)
{
    static unsigned last[LOCKMGR_MAX_SESSIONS + 1][2];
    int changed = 0, waiting = 0;
    for (unsigned session = 1; session <= sessions; session++) {
        unsigned item = waits_at(session), holder = item ? lockmgr_holder(table, item) : 0;
        changed |= last[session][0] != item || last[session][1] != holder;
        last[session][0] = item;
        last[session][1] = holder;
        waiting |= item != 0;
    }
    if (changed && !waiting)
        printf("      nobody waits any more\n");
    for (unsigned session = 1; changed && session <= sessions; session++)
        if (last[session][0])
            printf("      session %u waits for item %u held by session %u\n", session,
                   last[session][0], last[session][1]);
}

/* 1 if a cycle goes through the wait of this session at this item. */
static int cycle_through(unsigned session, unsigned item)
{
    return on_cycle(session) && waits_at(session) == item;
}

static const char *colour(int red)
{
    return red ? ", color=red" : "";
}

static void write_waits(const char *name, unsigned step)
{
    FILE *dot = open_file(name, "w");
    fprintf(dot, "digraph waits {\n    rankdir=LR;\n    label=\"after step %u\";\n", step);
    fprintf(dot, "    graph [fontname=\"sans-serif\"];\n    node [fontname=\"sans-serif\"];\n");
    fprintf(dot, "    edge [fontname=\"sans-serif\", fontsize=11];\n");
    for (unsigned session = 1; session <= sessions; session++)
        fprintf(dot, "    session%u [label=\"session %u\\n%s\"%s];\n", session, session,
                lockmgr_stage_text(lockmgr_stage(table, session)), colour(on_cycle(session)));
    for (unsigned item = 1; item <= items; item++) {
        unsigned holder = lockmgr_holder(table, item), red = 0;
        for (unsigned k = 0; k < lockmgr_queue_length(table, item); k++) {
            unsigned session = lockmgr_queue_session(table, item, k);
            red |= cycle_through(session, item) != 0;
            fprintf(dot, "    session%u -> item%u [label=\"waits for\"%s];\n", session, item,
                    colour(cycle_through(session, item)));
        }
        fprintf(dot, "    item%u [label=\"item %u\", shape=box%s];\n", item, item,
                colour(red != 0));
        if (holder)
            fprintf(dot, "    item%u -> session%u [label=\"held by\"%s];\n", item, holder,
                    colour(red != 0));
    }
    fprintf(dot, "}\n");
    if (ferror(dot) | (fclose(dot) != 0))
        fail("%s: cannot be written", name);
}

/* ---- Steps ---------------------------------------------------------------- */

static void print_message(lockmgr_message m)
{
    printf("%s", lockmgr_kind_text(m.kind));
    if (m.a || m.b)
        printf(" (%u, %u)", m.a, m.b);
}

/* What a step is about to do. */
static void print_step(unsigned verb, unsigned session, unsigned item)
{
    unsigned direction = verb == LOCKMGR_DELIVER_TO_ITEM ? LOCKMGR_TO_ITEM : LOCKMGR_TO_SESSION;
    if (verb == LOCKMGR_REQUEST || verb == LOCKMGR_RELEASE) {
        printf("      %s by session %u of item %u\n", lockmgr_verb_text(verb), session, item);
        return;
    }
    for (unsigned k = 0; k < lockmgr_mail_count(mail); k++) {
        lockmgr_message m = lockmgr_mail_message(mail, k);
        if (m.direction != direction || m.session != session || m.item != item)
            continue;
        printf("      ");
        print_message(m);
        if (direction == LOCKMGR_TO_ITEM)
            printf(" from session %u reaches item %u\n", session, item);
        else
            printf(" from item %u reaches session %u\n", item, session);
        return;
    }
    printf("      %s: session %u, item %u\n", lockmgr_verb_text(verb), session, item);
}

static void print_sent(unsigned sent)
{
    unsigned count = lockmgr_mail_count(mail);
    for (unsigned k = count - sent; k < count; k++) {
        lockmgr_message m = lockmgr_mail_message(mail, k);
        printf("      sent: ");
        print_message(m);
        if (m.direction == LOCKMGR_TO_ITEM)
            printf(" to item %u\n", m.item);
        else
            printf(" to session %u\n", m.session);
    }
}

static unsigned stage(unsigned session)
{
    return session >= 1 && session <= sessions ? lockmgr_stage(table, session) : 0;
}

/* Makes a step and tells of it; its answer must be the line. */
static void trace(unsigned number, unsigned verb, unsigned session, unsigned item, const char *line)
{
    char expected[80];
    unsigned before = stage(session);
    size_t table_len = LOCKMGR_TABLE_SIZE(sessions, items);
    printf("%s\n", line);
    print_step(verb, session, item);
    lockmgr_answer a = lockmgr_step(verb, session, item, table, table_len, mail, sizeof mail);
    snprintf(expected, sizeof expected, "%u %u %u %u %u %u %u %u %u", number, verb, session, item,
             a.refusal, a.sent, a.closed, a.victim, a.initiator);
    if (strcmp(line, expected) != 0)
        fail("the library answers otherwise: %s", expected);
    if (a.refusal != LOCKMGR_ACCEPTED) {
        printf("      refused: %s\n", lockmgr_refusal_text(a.refusal));
        return;
    }
    print_sent(a.sent);
    if (stage(session) != before)
        printf("      session %u is %s\n", session, lockmgr_stage_text(stage(session)));
    if (a.closed)
        print_cycle(session);
    if (a.victim)
        printf("      DEADLOCK DECLARED: session %u is the victim, session %u the initiator\n",
               a.victim, a.initiator);
    print_waits();
}

int main(int argc, char **argv)
{
    static uint8_t input[MAX_INPUT + 1];
    char line[80], *end;
    unsigned long drawn_step = 0;
    if (argc != 3 && argc != 5) {
        int help = argc == 2 && strcmp(argv[1], "--help") == 0;
        fprintf(help ? stdout : stderr,
                "usage: trace INPUT OUTPUT [STEP DOT]\n"
                "Tells what happens in a replay: INPUT is the input of the replay program, OUTPUT\n"
                "what it printed. The waits after step STEP are written to DOT, for Graphviz.\n");
        return help ? 0 : 2;
    }
    FILE *in = open_file(argv[1], "rb"), *out = open_file(argv[2], "r");
    size_t length = fread(input, 1, sizeof input, in);
    unsigned steps = length >= INPUT_HEADER ? input[2] + 256u * input[3] : 0;
    if (length < INPUT_HEADER || steps > MAX_STEPS || length != INPUT_HEADER + 3 * (size_t)steps)
        fail("%s: not the input of a replay", argv[1]);
    if (argc == 5) {
        drawn_step = strtoul(argv[3], &end, 10);
        if (*argv[3] < '0' || *argv[3] > '9' || *end != '\0' || drawn_step > steps)
            fail("no step '%s': there are the steps 1 to %u, and 0 is the start", argv[3], steps);
    }
    sessions = input[0];
    items = input[1];
    lockmgr_options options = lockmgr_default_options(sessions, items);
    options.capacity = LOCKMGR_MAX_CAPACITY;
    if (lockmgr_start_with(&options, table, LOCKMGR_TABLE_SIZE(sessions, items), mail,
                           sizeof mail) != LOCKMGR_ACCEPTED)
        fail("%s: %u sessions and %u items", argv[1], sessions, items);
    if (argc == 5 && drawn_step == 0)
        write_waits(argv[4], 0);
    for (unsigned k = 0; k < steps; k++) {
        const uint8_t *pair = input + INPUT_HEADER + steps + 2 * (size_t)k;
        if (!read_line(line, sizeof line, out))
            fail("%s: ends before step %u", argv[2], k + 1);
        trace(k + 1, input[INPUT_HEADER + k], pair[0], pair[1], line);
        if (argc == 5 && drawn_step == k + 1)
            write_waits(argv[4], k + 1);
    }
    if (!read_line(line, sizeof line, out))
        fail("%s: has no last line", argv[2]);
    unsigned left, closed, declared, rolled_back;
    if (sscanf(line, "end %u %u %u %u", &left, &closed, &declared, &rolled_back) != 4 ||
        left != lockmgr_mail_count(mail))
        fail("%s: the last line is %s", argv[2], line);
    printf("%s\n", line);
    printf("      %u messages left, %u cycles closed, %u declared, %u sessions rolled back\n", left,
           closed, declared, rolled_back);
    fclose(in);
    fclose(out);
    if (fflush(stdout) != 0 || ferror(stdout))
        fail("the trace cannot be written");
    return 0;
}
