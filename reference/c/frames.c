/*
 * Reads frames from standard input and lets the library read each, as a beacon and as an acknowledgement; to be run
 * under valgrind. Each frame has a heap block of exactly its size, so that valgrind sees every access beside it; the
 * checksum takes in every field of the answers, so that it sees one that is left unwritten. The exit status is 0 if all
 * answers are as expected.
 *
 * With the argument `probe` it reads one byte behind a frame itself: valgrind must find that.
 */
#include "tesolvagna.h"

#include <stdio.h>
#include <stdlib.h>
#include <string.h>

static void *block(size_t size)
{
    void *memory = malloc(size);

    if (memory == NULL) {
        fprintf(stderr, "no memory\n");
        exit(2);
    }
    return memory;
}

/* A number of the stream, least significant byte first; false at the end of the stream. */
static bool next_number(int width, uint64_t *number)
{
    uint8_t bytes[8];

    if (fread(bytes, 1, (size_t)width, stdin) != (size_t)width)
        return false;
    *number = 0;
    while (width-- > 0)
        *number = *number << 8 | bytes[width];
    return true;
}

/* Adds a number to a checksum (FNV-1a, with whole numbers in place of bytes). */
static uint64_t add(uint64_t sum, uint64_t number)
{
    return (sum ^ number) * 0x100000001B3;
}

/* The same for a beacon's record, field by field. */
static uint64_t add_beacon(uint64_t sum, const struct tesolvagna_beacon *beacon)
{
    int i;

    sum = add(sum, beacon->has_sequence_number);
    sum = add(sum, beacon->sequence_number);
    sum = add(sum, beacon->pan_id);
    sum = add(sum, beacon->source_is_extended);
    sum = add(sum, beacon->source);
    sum = add(sum, beacon->synchronization.asn);
    sum = add(sum, beacon->synchronization.join_metric);
    sum = add(sum, beacon->timeslot.template_id);
    sum = add(sum, beacon->timeslot.has_timings);
    for (i = 0; i < TESOLVAGNA_TIMINGS; i++)
        sum = add(sum, beacon->timeslot.timings[i]);
    sum = add(sum, beacon->hopping_sequence_id);
    sum = add(sum, beacon->slotframe.handle);
    sum = add(sum, beacon->slotframe.size);
    sum = add(sum, beacon->slotframe.link_count);
    for (i = 0; i < TESOLVAGNA_MOST_LINKS; i++) {
        sum = add(sum, beacon->slotframe.links[i].timeslot);
        sum = add(sum, beacon->slotframe.links[i].channel_offset);
        sum = add(sum, beacon->slotframe.links[i].options);
    }
    sum = add(sum, beacon->joining.present);
    sum = add(sum, beacon->joining.router);
    sum = add(sum, beacon->joining.proxied);
    sum = add(sum, beacon->joining.proxy_priority);
    sum = add(sum, beacon->joining.rank_priority);
    sum = add(sum, beacon->joining.pan_priority);
    sum = add(sum, beacon->joining.proxy_address);
    sum = add(sum, beacon->joining.network_id_length);
    for (i = 0; i < TESOLVAGNA_NETWORK_ID_BYTES; i++)
        sum = add(sum, beacon->joining.network_id[i]);
    return sum;
}

/* The same for an acknowledgement's. */
static uint64_t add_ack(uint64_t sum, const struct tesolvagna_ack *ack)
{
    sum = add(sum, ack->has_sequence_number);
    sum = add(sum, ack->sequence_number);
    sum = add(sum, ack->pan_id);
    sum = add(sum, ack->destination_is_extended);
    sum = add(sum, ack->destination);
    sum = add(sum, ack->source_is_extended);
    sum = add(sum, ack->source);
    sum = add(sum, (uint64_t)ack->correction);
    sum = add(sum, ack->not_acknowledged);
    return sum;
}

/* The checksum of the library's whole answers on the frame. */
static uint64_t answer(const uint8_t *frame, size_t length)
{
    const struct tesolvagna_reading reading = tesolvagna_beacon_read(frame, length);
    const struct tesolvagna_span network_id = tesolvagna_beacon_network_id(frame, length);
    const struct tesolvagna_ack_reading ack = tesolvagna_ack_read(frame, length);
    uint64_t sum = 0xCBF29CE484222325;

    sum = add(sum, reading.number);
    sum = add_beacon(sum, &reading.beacon);
    sum = add(sum, network_id.offset);
    sum = add(sum, network_id.length);
    sum = add(sum, ack.number);
    sum = add_ack(sum, &ack.ack);
    return sum;
}

/* Whether the record of an accepted beacon, written into a block of just enough bytes, reads as another one. */
static bool beacon_differs(const uint8_t *frame, size_t length)
{
    const struct tesolvagna_reading reading = tesolvagna_beacon_read(frame, length);
    struct tesolvagna_reading again;
    struct tesolvagna_written written;
    uint8_t longest[TESOLVAGNA_LONGEST_FRAME], *buffer;
    bool differs;

    if (reading.number != TESOLVAGNA_DONE)
        return false;
    written = tesolvagna_beacon_write(longest, sizeof longest, reading.beacon);
    if (written.number != TESOLVAGNA_DONE || written.length > length)
        return true;
    buffer = block(written.length);
    written = tesolvagna_beacon_write(buffer, written.length, reading.beacon);
    again = tesolvagna_beacon_read(buffer, written.length);
    differs = written.number != TESOLVAGNA_DONE || again.number != TESOLVAGNA_DONE
              || add_beacon(0, &again.beacon) != add_beacon(0, &reading.beacon);
    free(buffer);
    return differs;
}

/* The same for an accepted acknowledgement. */
static bool ack_differs(const uint8_t *frame, size_t length)
{
    const struct tesolvagna_ack_reading reading = tesolvagna_ack_read(frame, length);
    struct tesolvagna_ack_reading again;
    struct tesolvagna_written written;
    uint8_t longest[TESOLVAGNA_LONGEST_FRAME], *buffer;
    bool differs;

    if (reading.number != TESOLVAGNA_DONE)
        return false;
    written = tesolvagna_ack_write(longest, sizeof longest, reading.ack);
    if (written.number != TESOLVAGNA_DONE || written.length > length)
        return true;
    buffer = block(written.length);
    written = tesolvagna_ack_write(buffer, written.length, reading.ack);
    again = tesolvagna_ack_read(buffer, written.length);
    differs = written.number != TESOLVAGNA_DONE || again.number != TESOLVAGNA_DONE
              || add_ack(0, &again.ack) != add_ack(0, &reading.ack);
    free(buffer);
    return differs;
}

int main(int count, char **arguments)
{
    bool probe = count == 2 && strcmp(arguments[1], "probe") == 0;
    unsigned long frames = 0, wrong = 0;
    uint64_t length, expected;

    /* A frame in the stream: the checksum of its answers (8 bytes), its length (4 bytes), its bytes. */
    while (next_number(8, &expected) && next_number(4, &length)) {
        uint8_t *frame = block(length), *copy = block(length);

        if (fread(frame, 1, length, stdin) != length) {
            fprintf(stderr, "the stream ends within a frame\n");
            return 2;
        }
        memcpy(copy, frame, length);
        if (probe && frame[length] == 0x55)
            frames += 1;
        if (answer(frame, length) != expected || beacon_differs(frame, length) || ack_differs(frame, length)
            || memcmp(frame, copy, length) != 0)
            wrong += 1;
        frames += 1;
        free(frame);
        free(copy);
        if (probe)
            break;
    }
    printf("%lu frames, %lu wrong answers\n", frames, wrong);
    return frames > 0 && wrong == 0 ? 0 : 1;
}
