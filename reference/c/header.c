/*
 * Calls the library through its header on schedules, neighbour tables and ranks, with worked values in which the
 * fields of a struct differ. The exit status is 0 if all answers are right. This is C99, and C++ too.
 */
#include "check.h"

static void check_slot(const char *name, struct tesolvagna_slot slot, uint8_t number, uint8_t action, uint8_t channel,
                       uint8_t index)
{
    check(name, "number", slot.number, number);
    check(name, "action", slot.action, action);
    check(name, "channel", slot.channel, channel);
    check(name, "index", slot.index, index);
}

static void slots(void)
{
    /* The minimal schedule: one shared cell for all, in a slotframe of 11. */
    static const struct tesolvagna_link minimal[] = {
        {0, 0,
         TESOLVAGNA_OPTION_TRANSMIT | TESOLVAGNA_OPTION_RECEIVE | TESOLVAGNA_OPTION_SHARED
             | TESOLVAGNA_OPTION_TIMEKEEPING},
    };
    static const uint64_t largest = ((uint64_t)1 << 40) - 1;
    /* Four cells, three of them in timeslot 3; the channel offsets tell them apart. */
    struct tesolvagna_link mixed[4] = {{0, 0, 0}, {0, 0, 0}, {0, 0, 0}, {0, 0, 0}};
    struct tesolvagna_link many[TESOLVAGNA_MOST_LINKS + 1];
    size_t i;

    mixed[0].timeslot = 4;
    mixed[0].channel_offset = 0;
    mixed[0].options = TESOLVAGNA_OPTION_TRANSMIT | TESOLVAGNA_OPTION_RECEIVE;
    mixed[1].timeslot = 3;
    mixed[1].channel_offset = 9;
    mixed[1].options = TESOLVAGNA_OPTION_SHARED | TESOLVAGNA_OPTION_TIMEKEEPING;
    mixed[2].timeslot = 3;
    mixed[2].channel_offset = 5;
    mixed[2].options = TESOLVAGNA_OPTION_RECEIVE;
    mixed[3].timeslot = 3;
    mixed[3].channel_offset = 6;
    mixed[3].options = TESOLVAGNA_OPTION_TRANSMIT;
    /* No options: asleep, unless refused. */
    for (i = 0; i < TESOLVAGNA_MOST_LINKS + 1; i++) {
        many[i].timeslot = 0;
        many[i].channel_offset = 0;
        many[i].options = 0;
    }

    check_slot("minimal, frame waits", tesolvagna_slot_decide(minimal, 1, 11, 0, 11, true), TESOLVAGNA_DONE,
               TESOLVAGNA_TRANSMIT, 13, 0);
    check_slot("minimal, no frame", tesolvagna_slot_decide(minimal, 1, 11, 0, largest, false), TESOLVAGNA_DONE,
               TESOLVAGNA_LISTEN, 21, 0);
    check_slot("minimal, other slot", tesolvagna_slot_decide(minimal, 1, 11, 0, 12, true), TESOLVAGNA_DONE,
               TESOLVAGNA_SLEEP, 0, 0);
    check_slot("minimal, ASN 2^40", tesolvagna_slot_decide(minimal, 1, 1, 0, largest + 1, true),
               TESOLVAGNA_OUT_OF_LIMITS, TESOLVAGNA_SLEEP, 0, 0);

    check_slot("mixed, frame waits", tesolvagna_slot_decide(mixed, 4, 7, 0, 10, true), TESOLVAGNA_DONE,
               TESOLVAGNA_TRANSMIT, 16, 3);
    check_slot("mixed, no frame", tesolvagna_slot_decide(mixed, 4, 7, 0, 10, false), TESOLVAGNA_DONE,
               TESOLVAGNA_LISTEN, 21, 2);
    check_slot("mixed, no link's slot", tesolvagna_slot_decide(mixed, 4, 7, 0, 12, true), TESOLVAGNA_DONE,
               TESOLVAGNA_SLEEP, 0, 0);
    check_slot("mixed, size 4", tesolvagna_slot_decide(mixed, 4, 4, 0, 3, true), TESOLVAGNA_OUT_OF_LIMITS,
               TESOLVAGNA_SLEEP, 0, 0);
    check_slot("mixed, sequence 7, size 0", tesolvagna_slot_decide(mixed, 4, 0, 7, 10, true), TESOLVAGNA_OUT_OF_LIMITS,
               TESOLVAGNA_SLEEP, 0, 0);
    check_slot("mixed, size over 65535", tesolvagna_slot_decide(mixed, 4, 65536 + 7, 0, 65536 + 10, true),
               TESOLVAGNA_DONE, TESOLVAGNA_TRANSMIT, 16, 3);
    check_slot("no links", tesolvagna_slot_decide(NULL, 0, 7, 0, 10, true), TESOLVAGNA_OUT_OF_LIMITS, TESOLVAGNA_SLEEP,
               0, 0);
    check_slot("as many links as may be", tesolvagna_slot_decide(many, TESOLVAGNA_MOST_LINKS, 1, 0, 0, true),
               TESOLVAGNA_DONE, TESOLVAGNA_SLEEP, 0, 0);
    check_slot("a link more", tesolvagna_slot_decide(many, TESOLVAGNA_MOST_LINKS + 1, 1, 0, 0, true),
               TESOLVAGNA_OUT_OF_LIMITS, TESOLVAGNA_SLEEP, 0, 0);

    check("channel", "of ASN 2^40 - 1", tesolvagna_channel(largest, 0), 21);
    check("channel", "of ASN 2^40 - 1, channel offset 1", tesolvagna_channel(largest, 1), 16);
}

static void ranks(void)
{
    struct tesolvagna_metric metric = tesolvagna_join_metric(2816);

    check("join metric of 2816", "number", metric.number, TESOLVAGNA_DONE);
    check("join metric of 2816", "metric", metric.metric, 10);
    metric = tesolvagna_join_metric(65536 + 2816);
    check("join metric of 68352", "number", metric.number, TESOLVAGNA_OUT_OF_LIMITS);
    check("join metric of 68352", "metric", metric.metric, 0);
    check("increment", "of 8 attempts, 7 acknowledged", tesolvagna_increment(8, 7), 366);
    check("increment", "of 7 attempts, 8 acknowledged", tesolvagna_increment(7, 8), 160);
    check("increment", "before the first attempt", tesolvagna_increment(0, 0), 768);
    check("increment", "of 1 attempt, none acknowledged", tesolvagna_increment(1, 0), 0);
}

static void check_table(const char *name, const struct tesolvagna_table *found, const struct tesolvagna_table *expected)
{
    size_t i;

    for (i = 0; i < TESOLVAGNA_NEIGHBOURS; i++) {
        check(name, "id", found->neighbours[i].id, expected->neighbours[i].id);
        check(name, "rank", found->neighbours[i].rank, expected->neighbours[i].rank);
        check(name, "attempts", found->neighbours[i].attempts, expected->neighbours[i].attempts);
        check(name, "acknowledged", found->neighbours[i].acknowledged, expected->neighbours[i].acknowledged);
        check(name, "in use", found->neighbours[i].in_use, expected->neighbours[i].in_use);
    }
    check(name, "has parent", found->has_parent, expected->has_parent);
    check(name, "parent", found->parent, expected->parent);
}

static void check_answer(const char *name, struct tesolvagna_table_answer answer, uint8_t number,
                         const struct tesolvagna_table *expected)
{
    check(name, "number", answer.number, number);
    check_table(name, &answer.table, expected);
}

static void check_evaluation(const char *name, struct tesolvagna_evaluation evaluation, uint8_t number, bool changed,
                             uint16_t rank, const struct tesolvagna_table *expected)
{
    check(name, "number", evaluation.number, number);
    check(name, "changed", evaluation.changed, changed);
    check(name, "own rank", evaluation.rank, rank);
    check(name, "has parent of the answer", evaluation.has_parent, expected->has_parent);
    check(name, "parent of the answer", evaluation.parent, expected->parent);
    check_table(name, &evaluation.table, expected);
}

static void set_neighbour(struct tesolvagna_neighbour *neighbour, uint64_t id, uint16_t rank, uint16_t attempts,
                          uint16_t acknowledged)
{
    neighbour->id = id;
    neighbour->rank = rank;
    neighbour->attempts = attempts;
    neighbour->acknowledged = acknowledged;
    neighbour->in_use = true;
}

/* Each call on a table that is what it is expected to be. */
static void calls(void)
{
    struct tesolvagna_table table = tesolvagna_table_init(), full, broken;
    const struct tesolvagna_neighbour none = table.neighbours[0];
    size_t i;

    check("empty table", "in use", table.neighbours[31].in_use, false);
    check("empty table", "has parent", table.has_parent, false);
    check_evaluation("empty table", tesolvagna_table_evaluate(table), TESOLVAGNA_DONE, false, TESOLVAGNA_NO_RANK,
                     &table);

    set_neighbour(&table.neighbours[0], 7, 300, 0, 0);
    check_answer("first place", tesolvagna_table_advertise(tesolvagna_table_init(), 7, 300), TESOLVAGNA_DONE, &table);
    full = table;
    full.has_parent = true;
    full.parent = 7;
    check_evaluation("fresh parent", tesolvagna_table_evaluate(table), TESOLVAGNA_DONE, true, 1068, &full);
    full = table;
    set_neighbour(&table.neighbours[0], 7, 300, 1, 0);
    check_answer("failed", tesolvagna_table_report(full, 7, 1, false), TESOLVAGNA_DONE, &table);
    full = table;
    set_neighbour(&table.neighbours[1], 9, 600, 0, 0);
    check_answer("second place", tesolvagna_table_advertise(full, 9, 600), TESOLVAGNA_DONE, &table);
    full = table;
    set_neighbour(&table.neighbours[1], 9, 600, 3, 1);
    check_answer("acknowledged", tesolvagna_table_report(full, 9, 3, true), TESOLVAGNA_DONE, &table);
    full = table;
    set_neighbour(&table.neighbours[1], 9, 600, 4, 2);
    check_answer("and again", tesolvagna_table_report(full, 9, 1, true), TESOLVAGNA_DONE, &table);
    check_answer("unknown", tesolvagna_table_report(table, 8, 1, true), TESOLVAGNA_UNKNOWN_NEIGHBOUR, &table);
    check_answer("65537 attempts", tesolvagna_table_report(table, 9, 65537, true), TESOLVAGNA_OUT_OF_LIMITS, &table);

    full = table;
    table.has_parent = true;
    table.parent = 9;
    check_evaluation("first parent", tesolvagna_table_evaluate(full), TESOLVAGNA_DONE, true, 1624, &table);
    check_evaluation("kept", tesolvagna_table_evaluate(table), TESOLVAGNA_DONE, false, 1624, &table);
    full = table;
    table.has_parent = false;
    table.parent = 0;
    full.neighbours[1].rank = 200;
    table.neighbours[1].rank = 200;
    check_evaluation("dropped", tesolvagna_table_evaluate(full), TESOLVAGNA_DONE, true, TESOLVAGNA_NO_RANK, &table);
    table.neighbours[1] = none;
    check_answer("forgotten", tesolvagna_table_forget(full, 9), TESOLVAGNA_DONE, &table);
    check_answer("unknown", tesolvagna_table_forget(full, 8), TESOLVAGNA_UNKNOWN_NEIGHBOUR, &full);

    for (i = 0; i < TESOLVAGNA_NEIGHBOURS; i++)
        set_neighbour(&full.neighbours[i], 100 + i, 300, 5, 2);
    full.parent = 100;
    check_answer("full", tesolvagna_table_advertise(full, 8, 300), TESOLVAGNA_TABLE_FULL, &full);

    broken = full;
    broken.has_parent = false;
    check_answer("parent that is not held", tesolvagna_table_advertise(broken, 100, 1), TESOLVAGNA_OUT_OF_LIMITS,
                 &broken);
    check_evaluation("parent that is not held", tesolvagna_table_evaluate(broken), TESOLVAGNA_OUT_OF_LIMITS, false,
                     TESOLVAGNA_NO_RANK, &broken);
    broken = full;
    broken.neighbours[31].attempts = 256;
    check_answer("256 attempts", tesolvagna_table_forget(broken, 100), TESOLVAGNA_OUT_OF_LIMITS, &broken);
}

static void check_replay(const char *name, struct tesolvagna_replay replay, uint8_t number, bool applies,
                         uint32_t evaluations, uint32_t changes, uint64_t rises, uint32_t first_cost,
                         uint32_t last_cost, const struct tesolvagna_table *expected)
{
    check(name, "number", replay.number, number);
    check(name, "applies", replay.applies, applies);
    check(name, "evaluations", replay.evaluations, evaluations);
    check(name, "changes", replay.changes, changes);
    check(name, "rises", replay.rises, rises);
    check(name, "first cost", replay.first_cost, first_cost);
    check(name, "last cost", replay.last_cost, last_cost);
    check_table(name, &replay.table, expected);
}

/* Three evaluations, of which the second changes the parent: its cost rose from 1256 to 1409, 641 over the other's. */
static void logs(void)
{
    static const uint8_t kinds[] = {TESOLVAGNA_CALL_EVALUATE, TESOLVAGNA_CALL_ADVERTISE, TESOLVAGNA_CALL_EVALUATE,
                                    TESOLVAGNA_CALL_REPORT,   TESOLVAGNA_CALL_EVALUATE,  TESOLVAGNA_CALL_FORGET};
    static const uint64_t ids[] = {0, 7, 0, 5, 0, 7};
    static const uint16_t values[] = {0, 1153, 0, 4, 0, 0};
    static const uint8_t flags[] = {0, 0, 0, 1, 0, 0};
    const size_t rows = sizeof kinds;
    struct tesolvagna_table given = tesolvagna_table_init(), after = given;
    struct tesolvagna_replay replay;

    set_neighbour(&given.neighbours[0], 7, 1000, 1, 1);
    set_neighbour(&given.neighbours[1], 9, 512, 1, 1);
    set_neighbour(&given.neighbours[2], 5, 300, 0, 0);
    given.has_parent = true;
    given.parent = 7;
    set_neighbour(&after.neighbours[1], 9, 512, 1, 1);
    set_neighbour(&after.neighbours[2], 5, 300, 4, 1);
    after.has_parent = true;
    after.parent = 9;

    replay = tesolvagna_table_replay(given, kinds, rows, ids, rows, values, rows, flags, rows);
    check_replay("log", replay, TESOLVAGNA_DONE, true, 3, 1, 153, 1256, 768, &after);
    replay = tesolvagna_table_replay(given, kinds, rows, ids, rows, values, rows - 1, flags, rows);
    check_replay("a value less", replay, TESOLVAGNA_OUT_OF_LIMITS, false, 0, 0, 0, 0, 0, &given);
    replay = tesolvagna_table_replay(given, NULL, 0, NULL, 0, NULL, 0, NULL, 0);
    check_replay("no calls", replay, TESOLVAGNA_DONE, false, 0, 0, 0, 0, 0, &given);
}

int main(void)
{
    check("version", "number", TESOLVAGNA_VERSION, 0x020300);
    slots();
    ranks();
    calls();
    logs();
    return verdict();
}
