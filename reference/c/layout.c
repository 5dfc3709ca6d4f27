/*
 * The layout of the header's structs: prints the size of each, and the offset and size of each field, as the compiler
 * has them, and compares them with the numbers that stand here. tests/header.rs compares what is printed with the
 * Rust side. The exit status is the number of differences.
 */
#include "tesolvagna.h"

#include <stdio.h>

static int differences;

static void show(const char *of, const char *field, size_t offset, size_t size, size_t wanted_offset,
                 size_t wanted_size)
{
    printf("%s %s %zu %zu\n", of, field, offset, size);
    if (offset != wanted_offset || size != wanted_size) {
        fprintf(stderr, "%s %s: not %zu %zu\n", of, field, wanted_offset, wanted_size);
        differences++;
    }
}

#define SIZE(of, size) show(#of, "", 0, sizeof(struct tesolvagna_##of), 0, size)
#define FIELD(of, field, offset, size)                                                                                 \
    show(#of, #field, offsetof(struct tesolvagna_##of, field), sizeof(((struct tesolvagna_##of *)0)->field), offset,   \
         size)

int main(void)
{
    SIZE(link, 6);
    FIELD(link, timeslot, 0, 2);
    FIELD(link, channel_offset, 2, 2);
    FIELD(link, options, 4, 2);

    SIZE(synchronization, 16);
    FIELD(synchronization, asn, 0, 8);
    FIELD(synchronization, join_metric, 8, 1);

    SIZE(timeslot, 52);
    FIELD(timeslot, template_id, 0, 1);
    FIELD(timeslot, has_timings, 1, 1);
    FIELD(timeslot, timings, 4, 48);

    SIZE(slotframe, 102);
    FIELD(slotframe, handle, 0, 1);
    FIELD(slotframe, size, 2, 2);
    FIELD(slotframe, link_count, 4, 2);
    FIELD(slotframe, links, 6, 96);

    SIZE(joining, 40);
    FIELD(joining, present, 0, 1);
    FIELD(joining, router, 1, 1);
    FIELD(joining, proxied, 2, 1);
    FIELD(joining, proxy_priority, 3, 1);
    FIELD(joining, rank_priority, 4, 2);
    FIELD(joining, pan_priority, 6, 1);
    FIELD(joining, proxy_address, 8, 8);
    FIELD(joining, network_id_length, 16, 1);
    FIELD(joining, network_id, 17, 16);

    SIZE(beacon, 232);
    FIELD(beacon, has_sequence_number, 0, 1);
    FIELD(beacon, sequence_number, 1, 1);
    FIELD(beacon, pan_id, 2, 2);
    FIELD(beacon, source_is_extended, 4, 1);
    FIELD(beacon, source, 8, 8);
    FIELD(beacon, synchronization, 16, 16);
    FIELD(beacon, timeslot, 32, 52);
    FIELD(beacon, hopping_sequence_id, 84, 1);
    FIELD(beacon, slotframe, 86, 102);
    FIELD(beacon, joining, 192, 40);

    SIZE(reading, 240);
    FIELD(reading, number, 0, 1);
    FIELD(reading, beacon, 8, 232);

    SIZE(written, 16);
    FIELD(written, number, 0, 1);
    FIELD(written, length, 8, 8);

    SIZE(span, 16);
    FIELD(span, offset, 0, 8);
    FIELD(span, length, 8, 8);

    SIZE(content, 32);
    FIELD(content, kind, 0, 4);
    FIELD(content, length, 4, 4);
    FIELD(content, number, 8, 8);
    FIELD(content, octets, 16, 16);

    SIZE(ack, 40);
    FIELD(ack, has_sequence_number, 0, 1);
    FIELD(ack, sequence_number, 1, 1);
    FIELD(ack, pan_id, 2, 2);
    FIELD(ack, destination_is_extended, 4, 1);
    FIELD(ack, destination, 8, 8);
    FIELD(ack, source_is_extended, 16, 1);
    FIELD(ack, source, 24, 8);
    FIELD(ack, correction, 32, 4);
    FIELD(ack, not_acknowledged, 36, 1);

    SIZE(ack_reading, 48);
    FIELD(ack_reading, number, 0, 1);
    FIELD(ack_reading, ack, 8, 40);

    SIZE(neighbour, 16);
    FIELD(neighbour, id, 0, 8);
    FIELD(neighbour, rank, 8, 2);
    FIELD(neighbour, attempts, 10, 2);
    FIELD(neighbour, acknowledged, 12, 2);
    FIELD(neighbour, in_use, 14, 1);

    SIZE(table, 528);
    FIELD(table, has_parent, 0, 1);
    FIELD(table, parent, 8, 8);
    FIELD(table, neighbours, 16, 512);

    SIZE(table_answer, 536);
    FIELD(table_answer, number, 0, 1);
    FIELD(table_answer, table, 8, 528);

    SIZE(evaluation, 544);
    FIELD(evaluation, number, 0, 1);
    FIELD(evaluation, changed, 1, 1);
    FIELD(evaluation, rank, 2, 2);
    FIELD(evaluation, has_parent, 4, 1);
    FIELD(evaluation, parent, 8, 8);
    FIELD(evaluation, table, 16, 528);

    SIZE(replay, 560);
    FIELD(replay, number, 0, 1);
    FIELD(replay, applies, 1, 1);
    FIELD(replay, evaluations, 4, 4);
    FIELD(replay, changes, 8, 4);
    FIELD(replay, rises, 16, 8);
    FIELD(replay, first_cost, 24, 4);
    FIELD(replay, last_cost, 28, 4);
    FIELD(replay, table, 32, 528);

    SIZE(slot, 4);
    FIELD(slot, number, 0, 1);
    FIELD(slot, action, 1, 1);
    FIELD(slot, channel, 2, 1);
    FIELD(slot, index, 3, 1);

    SIZE(metric, 2);
    FIELD(metric, number, 0, 1);
    FIELD(metric, metric, 1, 1);
    return differences;
}
