/*
 * A first use of the library: what a tag does with a beacon that its radio hands over. After tools/library:
 *
 *     cc -std=c99 -I include examples/tag.c target/staticlib/libtesolvagna.a -o target/tag
 *     target/tag examples/joining.frame
 *
 * The library allocates nothing and keeps nothing: records and tables go by value. Every answer that can be a refusal
 * has a
 * number, TESOLVAGNA_DONE or the reason why not.
 */
#include "tesolvagna.h"

#include <inttypes.h>
#include <stdio.h>
#include <stdlib.h>

/* For calls that only a mistake in this program makes fail. */
static void must(const char *call, unsigned number)
{
    if (number != TESOLVAGNA_DONE) {
        fprintf(stderr, "%s: refused with %u\n", call, number);
        exit(1);
    }
}

static void show_beacon(const struct tesolvagna_beacon *beacon)
{
    const struct tesolvagna_timeslot *timeslot = &beacon->timeslot;
    const struct tesolvagna_joining *joining = &beacon->joining;

    /* What a beacon may leave out has a mark of its own: 0 is a sequence number too. */
    if (beacon->has_sequence_number)
        printf("sequence number %d\n", beacon->sequence_number);
    printf("PAN %04X, %s source %016" PRIX64 "\n", (unsigned)beacon->pan_id,
           beacon->source_is_extended ? "extended" : "short", beacon->source);
    printf("ASN %" PRIu64 ", join metric %d\n", beacon->synchronization.asn, beacon->synchronization.join_metric);
    printf("timeslot template %d", timeslot->template_id);
    if (timeslot->has_timings)
        printf(", %" PRIu32 " us long, transmit after %" PRIu32 " us",
               timeslot->timings[TESOLVAGNA_TIMING_TIMESLOT_LENGTH], timeslot->timings[TESOLVAGNA_TIMING_TX_OFFSET]);
    printf("\nhopping sequence %d, slotframe %d of %d slots\n", beacon->hopping_sequence_id, beacon->slotframe.handle,
           beacon->slotframe.size);
    if (joining->present)
        printf("joining: router flag %d, priorities: proxy %d, rank %d, PAN %d\n", joining->router,
               joining->proxy_priority, joining->rank_priority, joining->pan_priority);
    if (joining->proxied)
        printf("join proxy %016" PRIX64 "\n", joining->proxy_address);
}

/* The network ID where it was received, without a copy; its bytes need not be text. */
static void show_network_id(const uint8_t *frame, size_t length)
{
    struct tesolvagna_span part = tesolvagna_beacon_network_id(frame, length);

    printf("network ID: %zu bytes at %zu:", part.length, part.offset);
    for (size_t i = 0; i < part.length; i++)
        printf(" %02X", (unsigned)frame[part.offset + i]);
    printf("\n");
}

static void show_slot(const struct tesolvagna_beacon *beacon, uint64_t asn, bool waits)
{
    const struct tesolvagna_slotframe *slotframe = &beacon->slotframe;
    struct tesolvagna_slot slot = tesolvagna_slot_decide(slotframe->links, slotframe->link_count, slotframe->size,
                                                         beacon->hopping_sequence_id, asn, waits);

    printf("slot %" PRIu64 ", %s: ", asn, waits ? "a frame waits" : "none waits");
    if (slot.number != TESOLVAGNA_DONE)
        printf("refused with %d\n", slot.number);
    else if (slot.action == TESOLVAGNA_SLEEP)
        printf("sleep\n");
    else
        printf("%s on channel %d, link %d\n", slot.action == TESOLVAGNA_TRANSMIT ? "transmit" : "listen", slot.channel,
               slot.index);
}

/* What to do in the slots that the next slotframe has for the links, and in its last slot. */
static void show_slots(const struct tesolvagna_beacon *beacon)
{
    /* An accepted beacon's slotframe has at least one slot. */
    const uint64_t asn = beacon->synchronization.asn, size = beacon->slotframe.size, next = asn - asn % size + size;

    for (int i = 0; i < beacon->slotframe.link_count; i++) {
        const struct tesolvagna_link link = beacon->slotframe.links[i];

        printf("link %d: timeslot %d, channel offset %d,%s%s%s%s\n", i, link.timeslot, link.channel_offset,
               link.options & TESOLVAGNA_OPTION_TRANSMIT ? " transmit" : "",
               link.options & TESOLVAGNA_OPTION_RECEIVE ? " receive" : "",
               link.options & TESOLVAGNA_OPTION_SHARED ? " shared" : "",
               link.options & TESOLVAGNA_OPTION_TIMEKEEPING ? " timekeeping" : "");
        show_slot(beacon, next + link.timeslot, true);
        show_slot(beacon, next + link.timeslot, false);
    }
    show_slot(beacon, next + size - 1, true);
}

static void show_neighbours(const struct tesolvagna_table *table)
{
    for (int i = 0; i < TESOLVAGNA_NEIGHBOURS; i++) {
        const struct tesolvagna_neighbour *place = &table->neighbours[i];

        if (place->in_use)
            printf("neighbour %016" PRIX64 ": rank %d, attempts %d, acknowledged %d\n", place->id, place->rank,
                   place->attempts, place->acknowledged);
    }
}

/* The table after a call. A call that is refused gives back the table as it was, so this would be right then too. */
static struct tesolvagna_table after(const char *call, struct tesolvagna_table_answer answer)
{
    must(call, answer.number);
    return answer.table;
}

/* Chooses the parent anew. To be without one is an answer, not a refusal. */
static struct tesolvagna_table evaluate(struct tesolvagna_table table)
{
    const struct tesolvagna_evaluation own = tesolvagna_table_evaluate(table);

    must("evaluate", own.number);
    if (own.has_parent) {
        const struct tesolvagna_metric join = tesolvagna_join_metric(own.rank);

        must("join metric", join.number);
        printf("parent %016" PRIX64 ", %s, own rank %d, join metric %d\n", own.parent, own.changed ? "new" : "kept",
               own.rank, join.metric);
    } else {
        printf("no parent, own rank %d\n", own.rank);
    }
    return own.table;
}

/* The table's calls, with the beacon's sender as one of three neighbours. */
static void run_table(uint64_t sender)
{
    const uint64_t second = sender + 1, deaf = sender + 2;
    struct tesolvagna_table table = evaluate(tesolvagna_table_init());

    /* Ranks are advertised in RPL's messages, not in beacons. A tag joins through the first neighbour that it hears. */
    table = evaluate(after("advertise", tesolvagna_table_advertise(table, sender, 512)));
    table = after("advertise", tesolvagna_table_advertise(table, second, 640));
    table = after("advertise", tesolvagna_table_advertise(table, deaf, 256));
    /* A report for each frame sent: how often it was, and whether it was acknowledged in the end. */
    table = after("report", tesolvagna_table_report(table, sender, 1, true));
    table = after("report", tesolvagna_table_report(table, second, 3, true));
    table = after("report", tesolvagna_table_report(table, deaf, 4, false));
    show_neighbours(&table);
    table = evaluate(table);
    table = evaluate(table);
    table = after("forget", tesolvagna_table_forget(table, sender));
    printf("forgotten: %016" PRIX64 "\n", sender);
    evaluate(table);
}

/* The beacon that the tag sends itself: the received one, with its own address and join metric. */
static void send_beacon(struct tesolvagna_beacon beacon)
{
    uint8_t buffer[TESOLVAGNA_LONGEST_FRAME];

    beacon.source_is_extended = false;
    beacon.source = 0x0007;
    beacon.synchronization.join_metric++;
    const struct tesolvagna_written written = tesolvagna_beacon_write(buffer, sizeof buffer, beacon);
    must("write", written.number);
    printf("own beacon of %zu bytes:", written.length);
    for (size_t i = 0; i < 9; i++)
        printf(" %02X", (unsigned)buffer[i]);
    printf(" ..\n");
}

int main(int count, char **arguments)
{
    /* Room for one byte too many: a longer frame is to be refused, not cut to what fits. */
    uint8_t frame[TESOLVAGNA_LONGEST_FRAME + 1];
    FILE *file = count == 2 ? fopen(arguments[1], "rb") : NULL;

    if (file == NULL) {
        fprintf(stderr, "usage: tag FILE, with the bytes of a frame in it\n");
        return 2;
    }
    const size_t length = fread(frame, 1, sizeof frame, file);
    fclose(file);
    struct tesolvagna_reading reading = tesolvagna_beacon_read(frame, length);
    printf("beacon of %zu bytes: number %d\n", length, reading.number);
    if (reading.number != TESOLVAGNA_DONE)
        return 1;
    show_beacon(&reading.beacon);
    show_network_id(frame, length);
    show_slots(&reading.beacon);
    send_beacon(reading.beacon);
    run_table(reading.beacon.source);

    /* After a refusal the record is blank: nothing of an older beacon is left in it. */
    reading = tesolvagna_beacon_read(frame, length - 1);
    printf("without its last byte: number %d, %d links\n", reading.number, reading.beacon.slotframe.link_count);
    return 0;
}
