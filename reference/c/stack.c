/*
 * Prints how much stack each exported call takes, as rows of a table. The call is made on a stack of its own that is
 * filled with a pattern; afterwards the lowest byte that is not the pattern any more shows how deep it went. Of
 * several inputs the deepest counts. What a function sets aside but does not touch is not seen.
 *
 * Compile with -O2 -maccumulate-outgoing-args: the place of the stack pointer is noted before the arguments are put
 * on the stack, and so must not move for them. x86-64 only.
 */
#define _XOPEN_SOURCE 700
#include "tesolvagna.h"

#include <stdio.h>
#include <stdlib.h>
#include <string.h>
#include <ucontext.h>

enum { stack_bytes = 1 << 18, pattern = 0xA5 };

static unsigned char *stack;
static ucontext_t outside, inside;
/* The stack pointer where a call is made. */
static char *pointer;

#define NOTE_POINTER() __asm__ volatile("movq %%rsp, %0" : "=m"(pointer) : : "memory")

/* How many bytes below the stack pointer are written by what a function calls. */
static size_t depth_of(void (*function)(void))
{
    size_t lowest = 0;

    memset(stack, pattern, stack_bytes);
    if (getcontext(&inside) != 0)
        abort();
    inside.uc_stack.ss_sp = stack;
    inside.uc_stack.ss_size = stack_bytes;
    inside.uc_link = &outside;
    makecontext(&inside, function, 0);
    if (swapcontext(&outside, &inside) != 0)
        abort();
    while (stack[lowest] == pattern)
        lowest++;
    return (size_t)(pointer - (char *)&stack[lowest]);
}

/* What the calls are made with, and where their answers go. */
static const uint8_t *frame;
static size_t frame_length;
static uint8_t buffer[TESOLVAGNA_LONGEST_FRAME];
static struct tesolvagna_beacon beacon;
static struct tesolvagna_ack ack;
static struct tesolvagna_table table;
static size_t field;
static uint64_t id;
static const uint8_t *kinds, *flags;
static const uint64_t *ids;
static const uint16_t *values;
static size_t rows;

static struct tesolvagna_reading reading;
static struct tesolvagna_written written;
static struct tesolvagna_span span;
static struct tesolvagna_content content;
static struct tesolvagna_ack_reading ack_reading;
static struct tesolvagna_table_answer answer;
static struct tesolvagna_evaluation evaluation;
static struct tesolvagna_replay replay;
static struct tesolvagna_slot slot;
static struct tesolvagna_metric metric;
static uint32_t number;

#define CALL(name, call)                                                                                               \
    static void call_##name(void)                                                                                      \
    {                                                                                                                  \
        NOTE_POINTER();                                                                                                \
        call;                                                                                                          \
    }

CALL(beacon_read, reading = tesolvagna_beacon_read(frame, frame_length))
CALL(beacon_write, written = tesolvagna_beacon_write(buffer, sizeof buffer, beacon))
CALL(beacon_network_id, span = tesolvagna_beacon_network_id(frame, frame_length))
CALL(beacon_field, content = tesolvagna_beacon_field(beacon, field))
CALL(ack_read, ack_reading = tesolvagna_ack_read(frame, frame_length))
CALL(ack_write, written = tesolvagna_ack_write(buffer, sizeof buffer, ack))
CALL(table_init, table = tesolvagna_table_init())
CALL(table_advertise, answer = tesolvagna_table_advertise(table, id, 300))
CALL(table_report, answer = tesolvagna_table_report(table, id, 4, true))
CALL(table_forget, answer = tesolvagna_table_forget(table, id))
CALL(table_evaluate, evaluation = tesolvagna_table_evaluate(table))
CALL(table_replay, replay = tesolvagna_table_replay(table, kinds, rows, ids, rows, values, rows, flags, rows))
CALL(slot_decide, slot = tesolvagna_slot_decide(beacon.slotframe.links, beacon.slotframe.link_count, 101, 0, id, true))
CALL(channel, number = tesolvagna_channel(id, 3))
CALL(increment, number = tesolvagna_increment(8, 7))
CALL(join_metric, metric = tesolvagna_join_metric(2816))

/* A beacon in the form in which beacons are written, with everything in it. */
static const uint8_t house_form[] = {
    0x40, 0xEA, 0x5C, 0xCD, 0xAB, 0xFF, 0xFF, 0x2A, 0x00, 0x00, 0xFE, 0xFF, 0x00, 0x00, 0x02, /* MAC header */
    0x00, 0x3F, 0x39, 0x88,                                                                   /* MLME group */
    0x06, 0x1A, 0x05, 0x04, 0x03, 0x02, 0x01, 0x03,                                           /* synchronization */
    0x1B, 0x1C, 0x07, 0x01, 0x00, 0x02, 0x00, 0x03, 0x00, 0x04, 0x00, 0x05, 0x00,             /* timeslot */
    0x06, 0x00, 0x07, 0x00, 0x08, 0x00, 0x09, 0x00, 0x0A, 0x00, 0x0B, 0x00, 0x01, 0x0C, 0x00, 0x02,
    0x01, 0xC8, 0x08,                                                                         /* channel hopping */
    0x0F, 0x1B, 0x01, 0x06, 0x65, 0x00, 0x02,                                                 /* slotframe */
    0x09, 0x00, 0x0A, 0x00, 0x0B, 0x0C, 0x00, 0x0D, 0x00, 0x0E,                               /* links */
    0x10, 0xA8, 0x02, 0xC1, 0x02, 0x03, 0x04,                                                 /* joining information */
    0xF1, 0x02, 0x03, 0x04, 0x05, 0x06, 0x07, 0x08, 0xAA, 0x00, 0xBB
};

/* A beacon in another form: an element that is skipped, six groups, another order, a byte behind the list. */
static const uint8_t other_form[] = {
    0x40, 0xAB, 0x34, 0x12, 0xFF, 0xFF, 0x07, 0x00,                               /* MAC header */
    0x02, 0x0F, 0x00, 0x3F, 0x00, 0x3F,                                           /* time correction, termination 1 */
    0x0D, 0xA8, 0x02, 0x40, 0x00, 0x00, 0x00, 0x00, 0x00, 0x00, 0x00, 0x00, 0x00, 0x00, 0x01, /* joining information */
    0x0C, 0x88, 0x0A, 0x1B, 0x01, 0x00, 0x0B, 0x00, 0x01, 0x00, 0x00, 0x00, 0x00, 0x0F,       /* slotframe and link */
    0x00, 0x90, 0x03, 0x88, 0x01, 0xC8, 0x00,                                     /* group 2, channel hopping */
    0x03, 0x88, 0x01, 0x1C, 0x00,                                                 /* timeslot */
    0x08, 0x88, 0x06, 0x1A, 0x00, 0x01, 0x00, 0x00, 0x00, 0x02,                   /* synchronization */
    0x00, 0xF8, 0xFF                                                              /* payload termination */
};

/* A MAC header and MLME groups of no bytes, as many as a frame can have; filled in before it is used. */
static uint8_t groups[TESOLVAGNA_LONGEST_FRAME - 1] = {0x40, 0xAB, 0x34, 0x12, 0xFF, 0xFF, 0x07, 0x00, 0x00, 0x3F};

static void fill_groups(void)
{
    size_t at;

    for (at = 10; at < sizeof groups; at += 2)
        groups[at + 1] = 0x88;
}

/* An acknowledgement in the form in which they are written, as long as they come. */
static const uint8_t house_ack[] = {
    0x02, 0xEE, 0x5C, 0xCD, 0xAB,                   /* frame control, sequence number, PAN ID */
    0x08, 0x07, 0x06, 0x05, 0x04, 0x03, 0x02, 0xF1, /* destination */
    0x2A, 0x00, 0x00, 0xFE, 0xFF, 0x00, 0x00, 0x02, /* source */
    0x02, 0x0F, 0x9C, 0x8F                          /* time correction */
};

/* A MAC header, a time correction and elements of no bytes, as many as a frame can have: they have ID 0. */
static const uint8_t elements[TESOLVAGNA_LONGEST_FRAME - 1] = {0x42, 0xAB, 0x34, 0x12, 0x08, 0x00,
                                                               0x07, 0x00, 0x02, 0x0F, 0x05, 0x00};

/* The deepest of the calls of a row. */
static size_t deepest;

/* Makes a call, and ends the program unless it gives this number: each input is to be what it is meant to be. */
static void make(const char *what, void (*function)(void), const uint8_t *found, uint8_t expected)
{
    size_t depth;

    /* Once before it is measured: the first call of a library function may have to look for it. */
    function();
    depth = depth_of(function);
    if (depth > deepest)
        deepest = depth;
    if (found != NULL && *found != expected) {
        fprintf(stderr, "stack: %s: number %d, not %d\n", what, *found, expected);
        exit(1);
    }
}

/* Prints a row: the function and its inputs, what it writes below the call, its arguments on the stack, its answer if
 * that does not come back in registers, and all together. */
static void row(const char *name, const char *input, size_t arguments, size_t result)
{
    if (result <= 16)
        result = 0;
    printf("| `tesolvagna_%s`%s | %zu | %zu | %zu | %zu |\n", name, input, deepest, arguments, result,
           deepest + arguments + result);
    deepest = 0;
}

/* Reading and looking for the network ID, also with as many groups as there can be: the reader of the list of groups
 * and that of a group call each other, so that groups take stack. */
static void frames(void (*function)(void), const char *name, const uint8_t *found, size_t result)
{
    frame = house_form;
    frame_length = sizeof house_form;
    make("house form", function, found, TESOLVAGNA_DONE);
    frame_length = sizeof house_form - 1;
    make("cut", function, found, TESOLVAGNA_CUT);
    frame_length = 0;
    make("empty", function, found, TESOLVAGNA_CUT);
    row(name, ", frames as they are written", 0, result);
    frame = other_form;
    frame_length = sizeof other_form;
    make("other form", function, found, TESOLVAGNA_DONE);
    row(name, ", six groups", 0, result);
    frame = groups;
    frame_length = sizeof groups;
    make("groups", function, found, TESOLVAGNA_MISSING_OR_TWICE);
    row(name, ", 57 groups of no bytes", 0, result);
}

static void beacons(void)
{
    fill_groups();
    frames(call_beacon_read, "beacon_read", &reading.number, sizeof reading);
    frames(call_beacon_network_id, "beacon_network_id", NULL, sizeof span);

    beacon = tesolvagna_beacon_read(house_form, sizeof house_form).beacon;
    make("record", call_beacon_write, &written.number, TESOLVAGNA_DONE);
    beacon.slotframe.link_count = 16;
    make("sixteen links", call_beacon_write, &written.number, TESOLVAGNA_FRAME_TOO_LONG);
    beacon.slotframe.links[15].options = 256;
    make("options over 255", call_beacon_write, &written.number, TESOLVAGNA_OUT_OF_LIMITS);
    row("beacon_write", "", sizeof beacon, sizeof written);

    for (field = 0; field <= TESOLVAGNA_FIELDS; field++)
        make("field", call_beacon_field, NULL, 0);
    row("beacon_field", "", sizeof beacon, sizeof content);
}

static void acks(void)
{
    frame = house_ack;
    frame_length = sizeof house_ack;
    make("house form", call_ack_read, &ack_reading.number, TESOLVAGNA_DONE);
    ack = ack_reading.ack;
    frame_length = sizeof house_ack - 1;
    make("cut", call_ack_read, &ack_reading.number, TESOLVAGNA_CUT);
    frame_length = 0;
    make("empty", call_ack_read, &ack_reading.number, TESOLVAGNA_CUT);
    row("ack_read", ", frames as they are written", 0, sizeof ack_reading);
    frame = elements;
    frame_length = sizeof elements;
    make("elements", call_ack_read, &ack_reading.number, TESOLVAGNA_DONE);
    row("ack_read", ", 56 elements of no bytes", 0, sizeof ack_reading);

    make("record", call_ack_write, &written.number, TESOLVAGNA_DONE);
    ack.correction = 2048;
    make("correction over 2047", call_ack_write, &written.number, TESOLVAGNA_OUT_OF_LIMITS);
    row("ack_write", "", sizeof ack, sizeof written);
}

/* A full table with the first neighbour as parent; all are eligible. */
static void fill_table(void)
{
    uint16_t i;

    for (i = 0; i < TESOLVAGNA_NEIGHBOURS; i++) {
        table.neighbours[i].id = i;
        table.neighbours[i].rank = (uint16_t)(2000 - i);
        table.neighbours[i].attempts = 255;
        table.neighbours[i].acknowledged = 200;
        table.neighbours[i].in_use = true;
    }
    table.has_parent = true;
    table.parent = 0;
}

static void tables(void)
{
    static const uint8_t every_kind[] = {0, 1, 2, 3, 0, 1, 3}, acknowledged[] = {0, 1, 0, 0, 0, 1, 0};
    static const uint64_t neighbours[] = {31, 0, 31, 0, 40, 99, 0};
    static const uint16_t numbers[] = {300, 4, 0, 0, 256, 9, 0};

    make("empty", call_table_init, NULL, 0);
    row("table_init", "", 0, sizeof table);
    make("new neighbour", call_table_advertise, &answer.number, TESOLVAGNA_DONE);
    fill_table();
    id = 31;
    make("known neighbour", call_table_advertise, &answer.number, TESOLVAGNA_DONE);
    id = 99;
    make("full table", call_table_advertise, &answer.number, TESOLVAGNA_TABLE_FULL);
    row("table_advertise", "", sizeof table, sizeof answer);
    make("unknown neighbour", call_table_report, &answer.number, TESOLVAGNA_UNKNOWN_NEIGHBOUR);
    id = 31;
    make("report", call_table_report, &answer.number, TESOLVAGNA_DONE);
    row("table_report", "", sizeof table, sizeof answer);
    make("forget", call_table_forget, &answer.number, TESOLVAGNA_DONE);
    row("table_forget", "", sizeof table, sizeof answer);
    make("evaluate", call_table_evaluate, &evaluation.number, TESOLVAGNA_DONE);
    table.neighbours[0].rank = 60000;
    make("evaluate, changed", call_table_evaluate, &evaluation.number, TESOLVAGNA_DONE);
    table.neighbours[31].id = 30;
    make("identifier twice", call_table_evaluate, &evaluation.number, TESOLVAGNA_OUT_OF_LIMITS);
    row("table_evaluate", "", sizeof table, sizeof evaluation);

    fill_table();
    kinds = every_kind;
    ids = neighbours;
    values = numbers;
    flags = acknowledged;
    rows = sizeof every_kind;
    make("log", call_table_replay, &replay.number, TESOLVAGNA_DONE);
    flags = every_kind;
    make("log with a flag over 1", call_table_replay, &replay.number, TESOLVAGNA_OUT_OF_LIMITS);
    /* With the place of the answer six numbers go in registers; the last three are on the stack. */
    row("table_replay", "", sizeof table + 3 * sizeof(size_t), sizeof replay);
}

static void numbers(void)
{
    beacon.slotframe.link_count = 2;
    id = 9;
    make("transmit", call_slot_decide, &slot.number, TESOLVAGNA_DONE);
    id = 11;
    make("sleep", call_slot_decide, &slot.number, TESOLVAGNA_DONE);
    beacon.slotframe.link_count = 17;
    make("17 links", call_slot_decide, &slot.number, TESOLVAGNA_OUT_OF_LIMITS);
    row("slot_decide", "", 0, sizeof slot);
    make("channel", call_channel, NULL, 0);
    row("channel", "", 0, sizeof(uint8_t));
    make("increment", call_increment, NULL, 0);
    row("increment", "", 0, sizeof number);
    make("join metric", call_join_metric, &metric.number, TESOLVAGNA_DONE);
    row("join_metric", "", 0, sizeof metric);
}

int main(void)
{
    stack = malloc(stack_bytes);
    if (stack == NULL)
        return 1;
    printf("| Function | below the call | arguments on the stack | answer in memory | together |\n");
    printf("|---|---|---|---|---|\n");
    beacons();
    acks();
    tables();
    numbers();
    free(stack);
    return 0;
}
