/*
 * Reads and writes beacons through the header and lists their fields, with records in which the fields of a struct
 * differ. The exit status is 0 if all answers are right.
 */
#include "check.h"

#include <string.h>

/* A frame, its record, and where its network ID stands. */
struct example {
    const char *name;
    uint8_t frame[TESOLVAGNA_LONGEST_FRAME];
    size_t length;
    struct tesolvagna_beacon beacon;
    struct tesolvagna_span network_id;
};

/* The first has everything. The flags of the other two differ: of sequence number and extended source, of R and P. */
static const struct example examples[] = {
    {
        .name = "everything",
        .frame =
            {
                0x40, 0xEA, 0x5C, 0xCD, 0xAB, 0xFF, 0xFF,                   /* frame control, .., destination */
                0x2A, 0x00, 0x00, 0xFE, 0xFF, 0x00, 0x00, 0x02,             /* extended source */
                0x00, 0x3F, 0x39, 0x88,                                     /* header termination 1, MLME group */
                0x06, 0x1A, 0x05, 0x04, 0x03, 0x02, 0x01, 0x1D,             /* synchronization */
                0x1B, 0x1C, 0x07,                                           /* timeslot, template ID */
                0x01, 0x00, 0x02, 0x00, 0x03, 0x00, 0x04, 0x00, 0x05, 0x00, /* timings of 2 bytes */
                0x06, 0x00, 0x07, 0x00, 0x08, 0x00, 0x09, 0x00, 0x0A, 0x00, /* timings of 2 bytes */
                0x0B, 0x00, 0x01, 0x0C, 0x00, 0x02,                         /* timings of 3 bytes */
                0x01, 0xC8, 0x08,                                           /* channel hopping */
                0x0F, 0x1B, 0x01, 0x06, 0x65, 0x00, 0x02,                   /* slotframe */
                0x09, 0x00, 0x0A, 0x00, 0x0B, 0x0C, 0x00, 0x0D, 0x00, 0x0E, /* links */
                0x10, 0xA8, 0x02, 0xC1, 0x02, 0x03, 0x04,                   /* IETF group, joining information */
                0xF1, 0x02, 0x03, 0x04, 0x05, 0x06, 0x07, 0x08,             /* address */
                0xAA, 0x00, 0xBB                                            /* network ID */
            },
        .length = 94,
        .beacon =
            {
                .has_sequence_number = true,
                .sequence_number = 0x5C,
                .pan_id = 0xABCD,
                .source_is_extended = true,
                .source = 0x020000FFFE00002A,
                .synchronization = {.asn = 0x0102030405, .join_metric = 29},
                .timeslot =
                    {
                        .template_id = 7,
                        .has_timings = true,
                        .timings =
                            {
                                [TESOLVAGNA_TIMING_CCA_OFFSET] = 1,
                                [TESOLVAGNA_TIMING_CCA] = 2,
                                [TESOLVAGNA_TIMING_TX_OFFSET] = 3,
                                [TESOLVAGNA_TIMING_RX_OFFSET] = 4,
                                [TESOLVAGNA_TIMING_RX_ACK_DELAY] = 5,
                                [TESOLVAGNA_TIMING_TX_ACK_DELAY] = 6,
                                [TESOLVAGNA_TIMING_RX_WAIT] = 7,
                                [TESOLVAGNA_TIMING_ACK_WAIT] = 8,
                                [TESOLVAGNA_TIMING_RX_TX] = 9,
                                [TESOLVAGNA_TIMING_MAX_ACK] = 10,
                                [TESOLVAGNA_TIMING_MAX_TX] = 0x1000B,
                                [TESOLVAGNA_TIMING_TIMESLOT_LENGTH] = 0x2000C,
                            },
                    },
                .hopping_sequence_id = 8,
                .slotframe =
                    {
                        .handle = 6,
                        .size = 101,
                        .link_count = 2,
                        .links =
                            {
                                {.timeslot = 9, .channel_offset = 10, .options = 11},
                                {.timeslot = 12, .channel_offset = 13, .options = 14},
                            },
                    },
                .joining =
                    {
                        .present = true,
                        .router = true,
                        .proxied = true,
                        .proxy_priority = 16,
                        .rank_priority = 515,
                        .pan_priority = 4,
                        .proxy_address = 0xF102030405060708,
                        .network_id_length = 3,
                        .network_id = {0xAA, 0x00, 0xBB},
                    },
            },
        .network_id = {.offset = 91, .length = 3},
    },
    {
        .name = "sequence number, short source, R without P",
        .frame =
            {
                0x40, 0xAA, 0x5C, 0xCD, 0xAB, 0xFF, 0xFF, 0x07, 0x00, /* frame control, .., source */
                0x00, 0x3F, 0x1A, 0x88,                               /* header termination 1, MLME group */
                0x06, 0x1A, 0x00, 0x01, 0x00, 0x00, 0x00, 0x02,       /* synchronization */
                0x01, 0x1C, 0x00, 0x01, 0xC8, 0x08,                   /* timeslot, channel hopping */
                0x0A, 0x1B, 0x01, 0x06, 0x65, 0x00, 0x01,             /* slotframe */
                0x09, 0x00, 0x0A, 0x00, 0x0B,                         /* link */
                0x08, 0xA8, 0x02, 0x81, 0x02, 0x03, 0x04,             /* IETF group, joining information */
                0xAA, 0x00, 0xBB                                      /* network ID */
            },
        .length = 49,
        .beacon =
            {
                .has_sequence_number = true,
                .sequence_number = 0x5C,
                .pan_id = 0xABCD,
                .source = 7,
                .synchronization = {.asn = 256, .join_metric = 2},
                .hopping_sequence_id = 8,
                .slotframe =
                    {
                        .handle = 6,
                        .size = 101,
                        .link_count = 1,
                        .links = {{.timeslot = 9, .channel_offset = 10, .options = 11}},
                    },
                .joining =
                    {
                        .present = true,
                        .router = true,
                        .proxy_priority = 16,
                        .rank_priority = 515,
                        .pan_priority = 4,
                        .network_id_length = 3,
                        .network_id = {0xAA, 0x00, 0xBB},
                    },
            },
        .network_id = {.offset = 46, .length = 3},
    },
    {
        .name = "no sequence number, extended source, P without R",
        .frame =
            {
                0x40, 0xEB, 0xCD, 0xAB, 0xFF, 0xFF,             /* frame control, .., destination */
                0x2A, 0x00, 0x00, 0xFE, 0xFF, 0x00, 0x00, 0x02, /* extended source */
                0x00, 0x3F, 0x1A, 0x88,                         /* header termination 1, MLME group */
                0x06, 0x1A, 0x00, 0x01, 0x00, 0x00, 0x00, 0x02, /* synchronization */
                0x01, 0x1C, 0x00, 0x01, 0xC8, 0x08,             /* timeslot, channel hopping */
                0x0A, 0x1B, 0x01, 0x06, 0x65, 0x00, 0x01,       /* slotframe */
                0x09, 0x00, 0x0A, 0x00, 0x0B,                   /* link */
                0x0D, 0xA8, 0x02, 0x41, 0x02, 0x03, 0x04,       /* IETF group, joining information */
                0xF1, 0x02, 0x03, 0x04, 0x05, 0x06, 0x07, 0x08  /* address */
            },
        .length = 59,
        .beacon =
            {
                .pan_id = 0xABCD,
                .source_is_extended = true,
                .source = 0x020000FFFE00002A,
                .synchronization = {.asn = 256, .join_metric = 2},
                .hopping_sequence_id = 8,
                .slotframe =
                    {
                        .handle = 6,
                        .size = 101,
                        .link_count = 1,
                        .links = {{.timeslot = 9, .channel_offset = 10, .options = 11}},
                    },
                .joining =
                    {
                        .present = true,
                        .proxied = true,
                        .proxy_priority = 16,
                        .rank_priority = 515,
                        .pan_priority = 4,
                        .proxy_address = 0xF102030405060708,
                    },
            },
        .network_id = {.offset = 0, .length = 0},
    },
};

static const struct tesolvagna_beacon blank;

static void check_beacon(const char *name, const struct tesolvagna_beacon *found,
                         const struct tesolvagna_beacon *expected)
{
    const struct tesolvagna_joining *joining = &found->joining, *wanted = &expected->joining;
    size_t i;

    check(name, "has sequence number", found->has_sequence_number, expected->has_sequence_number);
    check(name, "sequence number", found->sequence_number, expected->sequence_number);
    check(name, "PAN ID", found->pan_id, expected->pan_id);
    check(name, "source is extended", found->source_is_extended, expected->source_is_extended);
    check(name, "source", found->source, expected->source);
    check(name, "ASN", found->synchronization.asn, expected->synchronization.asn);
    check(name, "join metric", found->synchronization.join_metric, expected->synchronization.join_metric);
    check(name, "template ID", found->timeslot.template_id, expected->timeslot.template_id);
    check(name, "has timings", found->timeslot.has_timings, expected->timeslot.has_timings);
    for (i = 0; i < TESOLVAGNA_TIMINGS; i++)
        check(name, "timing", found->timeslot.timings[i], expected->timeslot.timings[i]);
    check(name, "hopping sequence ID", found->hopping_sequence_id, expected->hopping_sequence_id);
    check(name, "handle", found->slotframe.handle, expected->slotframe.handle);
    check(name, "size", found->slotframe.size, expected->slotframe.size);
    check(name, "link count", found->slotframe.link_count, expected->slotframe.link_count);
    for (i = 0; i < TESOLVAGNA_MOST_LINKS; i++) {
        check(name, "timeslot", found->slotframe.links[i].timeslot, expected->slotframe.links[i].timeslot);
        check(name, "channel offset", found->slotframe.links[i].channel_offset,
              expected->slotframe.links[i].channel_offset);
        check(name, "options", found->slotframe.links[i].options, expected->slotframe.links[i].options);
    }
    check(name, "joining information", joining->present, wanted->present);
    check(name, "R", joining->router, wanted->router);
    check(name, "P", joining->proxied, wanted->proxied);
    check(name, "proxy priority", joining->proxy_priority, wanted->proxy_priority);
    check(name, "rank priority", joining->rank_priority, wanted->rank_priority);
    check(name, "PAN priority", joining->pan_priority, wanted->pan_priority);
    check(name, "proxy address", joining->proxy_address, wanted->proxy_address);
    check(name, "network ID length", joining->network_id_length, wanted->network_id_length);
    for (i = 0; i < TESOLVAGNA_NETWORK_ID_BYTES; i++)
        check(name, "network ID", joining->network_id[i], wanted->network_id[i]);
}

static void check_reading(const char *name, const uint8_t *frame, size_t length, uint8_t number,
                          const struct tesolvagna_beacon *expected, struct tesolvagna_span network_id)
{
    const struct tesolvagna_reading reading = tesolvagna_beacon_read(frame, length);
    const struct tesolvagna_span span = tesolvagna_beacon_network_id(frame, length);

    check(name, "number", reading.number, number);
    check_beacon(name, &reading.beacon, expected);
    check(name, "network ID's offset", span.offset, network_id.offset);
    check(name, "network ID's length", span.length, network_id.length);
}

static void reading(const struct example *example)
{
    static const struct tesolvagna_span none;

    check_reading(example->name, example->frame, example->length, TESOLVAGNA_DONE, &example->beacon,
                  example->network_id);
    check_reading("without its last byte", example->frame, example->length - 1, TESOLVAGNA_CUT, &blank, none);
}

static void refused_readings(void)
{
    /* As long as a frame may be, and a byte more; no beacon. */
    static const uint8_t zeros[TESOLVAGNA_LONGEST_FRAME + 1];
    static const struct tesolvagna_span none;

    check_reading("fields alone", examples[0].frame, 15, TESOLVAGNA_MISSING_OR_TWICE, &blank, none);
    check_reading("no bytes", NULL, 0, TESOLVAGNA_CUT, &blank, none);
    check_reading("longest", zeros, TESOLVAGNA_LONGEST_FRAME, TESOLVAGNA_WRONG_TYPE, &blank, none);
    check_reading("a byte longer", zeros, TESOLVAGNA_LONGEST_FRAME + 1, TESOLVAGNA_FRAME_TOO_LONG, &blank, none);
}

/* What a kind of content does not use is 0. */
static void check_content(const char *name, const struct tesolvagna_beacon *beacon, size_t index, uint32_t kind,
                          uint32_t length, uint64_t number, const uint8_t *octets)
{
    static const uint8_t none[TESOLVAGNA_NETWORK_ID_BYTES];
    const struct tesolvagna_content content = tesolvagna_beacon_field(*beacon, index);

    check(name, "kind", content.kind, kind);
    check(name, "length", content.length, length);
    check(name, "number", content.number, number);
    check(name, "octets", (uint64_t)(memcmp(content.octets, octets == NULL ? none : octets, sizeof none) != 0), 0);
}

static void check_number(const char *name, const struct tesolvagna_beacon *beacon, size_t index, uint64_t number)
{
    check_content(name, beacon, index, TESOLVAGNA_CONTENT_NUMBER, 0, number, NULL);
}

static void check_absent(const char *name, const struct tesolvagna_beacon *beacon, size_t index)
{
    check_content(name, beacon, index, TESOLVAGNA_CONTENT_ABSENT, 0, 0, NULL);
}

/* All fields of the first example. */
static void fields(void)
{
    const struct tesolvagna_beacon *beacon = &examples[0].beacon;
    size_t i;

    check_number("sequence number", beacon, TESOLVAGNA_FIELD_SEQUENCE_NUMBER, 0x5C);
    check_number("PAN ID", beacon, TESOLVAGNA_FIELD_PAN_ID, 0xABCD);
    check_content("extended source", beacon, TESOLVAGNA_FIELD_SOURCE, TESOLVAGNA_CONTENT_EXTENDED, 0,
                  0x020000FFFE00002A, NULL);
    check_number("ASN", beacon, TESOLVAGNA_FIELD_ASN, 0x0102030405);
    check_number("join metric", beacon, TESOLVAGNA_FIELD_JOIN_METRIC, 29);
    check_number("template ID", beacon, TESOLVAGNA_FIELD_TEMPLATE_ID, 7);
    for (i = TESOLVAGNA_TIMING_CCA_OFFSET; i <= TESOLVAGNA_TIMING_MAX_ACK; i++)
        check_number("timing", beacon, TESOLVAGNA_FIELD_TIMINGS + i, i + 1);
    check_number("timing", beacon, TESOLVAGNA_FIELD_TIMINGS + TESOLVAGNA_TIMING_MAX_TX, 0x1000B);
    check_number("timing", beacon, TESOLVAGNA_FIELD_TIMINGS + TESOLVAGNA_TIMING_TIMESLOT_LENGTH, 0x2000C);
    check_number("hopping sequence ID", beacon, TESOLVAGNA_FIELD_HOPPING_SEQUENCE_ID, 8);
    check_number("handle", beacon, TESOLVAGNA_FIELD_SLOTFRAME_HANDLE, 6);
    check_number("size", beacon, TESOLVAGNA_FIELD_SLOTFRAME_SIZE, 101);
    check_number("link count", beacon, TESOLVAGNA_FIELD_LINK_COUNT, 2);
    for (i = 0; i < 6; i++)
        check_number("link", beacon, TESOLVAGNA_FIELD_LINKS + i, 9 + i);
    for (i = TESOLVAGNA_FIELD_LINKS + 6; i < TESOLVAGNA_FIELD_JOINING_R; i++)
        check_absent("link that is not there", beacon, i);
    check_number("R", beacon, TESOLVAGNA_FIELD_JOINING_R, 1);
    check_number("P", beacon, TESOLVAGNA_FIELD_JOINING_P, 1);
    check_number("proxy priority", beacon, TESOLVAGNA_FIELD_PROXY_PRIORITY, 16);
    check_number("rank priority", beacon, TESOLVAGNA_FIELD_RANK_PRIORITY, 515);
    check_number("PAN priority", beacon, TESOLVAGNA_FIELD_PAN_PRIORITY, 4);
    check_content("proxy address", beacon, TESOLVAGNA_FIELD_PROXY_ADDRESS, TESOLVAGNA_CONTENT_EXTENDED, 0,
                  0xF102030405060708, NULL);
    check_content("network ID", beacon, TESOLVAGNA_FIELD_NETWORK_ID, TESOLVAGNA_CONTENT_OCTETS, 3, 0,
                  beacon->joining.network_id);
    check_absent("behind the last field", beacon, TESOLVAGNA_FIELDS);
    check_absent("far behind it", beacon, SIZE_MAX);
}

/* Fields of the other examples that are not there, and a short source. */
static void absent_fields(void)
{
    size_t i;

    check_content("short source", &examples[1].beacon, TESOLVAGNA_FIELD_SOURCE, TESOLVAGNA_CONTENT_SHORT, 0, 7, NULL);
    check_absent("no proxy address", &examples[1].beacon, TESOLVAGNA_FIELD_PROXY_ADDRESS);
    check_absent("no sequence number", &examples[2].beacon, TESOLVAGNA_FIELD_SEQUENCE_NUMBER);
    for (i = 0; i < TESOLVAGNA_TIMINGS; i++)
        check_absent("no timings", &examples[2].beacon, TESOLVAGNA_FIELD_TIMINGS + i);
    check_content("network ID of no bytes", &examples[2].beacon, TESOLVAGNA_FIELD_NETWORK_ID,
                  TESOLVAGNA_CONTENT_OCTETS, 0, 0, NULL);
    for (i = TESOLVAGNA_FIELD_JOINING_R; i <= TESOLVAGNA_FIELD_NETWORK_ID; i++)
        check_absent("no joining information", &blank, i);
}

/* Writes into a buffer of so many bytes, part of a larger one. If it is done the frame is there; nothing else changes. */
static void check_writing(const char *name, struct tesolvagna_beacon beacon, size_t buffer_length, uint8_t number,
                          const uint8_t *frame, size_t length)
{
    uint8_t buffer[256], copy[256];
    struct tesolvagna_written written;

    memset(buffer, 0x55, sizeof buffer);
    memset(copy, 0x55, sizeof copy);
    memcpy(copy, frame, length);
    written = tesolvagna_beacon_write(buffer, buffer_length, beacon);
    check(name, "number", written.number, number);
    check(name, "length", written.length, length);
    check(name, "buffer", (uint64_t)(memcmp(buffer, copy, sizeof buffer) != 0), 0);
}

/* Of a refused record nothing is written. */
static void check_refusal(const char *name, struct tesolvagna_beacon beacon, size_t buffer_length, uint8_t number)
{
    check_writing(name, beacon, buffer_length, number, examples[0].frame, 0);
}

static void writing(const struct example *example)
{
    struct tesolvagna_written written;

    check_writing(example->name, example->beacon, 256, TESOLVAGNA_DONE, example->frame, example->length);
    check_writing("just enough", example->beacon, example->length, TESOLVAGNA_DONE, example->frame, example->length);
    check_refusal("a byte less", example->beacon, example->length - 1, TESOLVAGNA_BUFFER_TOO_SHORT);
    written = tesolvagna_beacon_write(NULL, 0, example->beacon);
    check("no buffer", "number", written.number, TESOLVAGNA_BUFFER_TOO_SHORT);
    check("no buffer", "length", written.length, 0);
}

/* What is refused comes in this order: limits, the frame's length, the buffer's. */
static void refused_writings(void)
{
    struct tesolvagna_beacon beacon = examples[0].beacon;

    beacon.slotframe.link_count = 8;
    check_refusal("eight links, 124 bytes, no buffer", beacon, 0, TESOLVAGNA_BUFFER_TOO_SHORT);
    beacon.slotframe.link_count = 9;
    check_refusal("nine links, 129 bytes", beacon, 256, TESOLVAGNA_FRAME_TOO_LONG);
    check_refusal("nine links, no buffer", beacon, 0, TESOLVAGNA_FRAME_TOO_LONG);
    beacon.slotframe.link_count = 17;
    check_refusal("17 links, no buffer", beacon, 0, TESOLVAGNA_OUT_OF_LIMITS);

    beacon = examples[0].beacon;
    beacon.slotframe.link_count = 1;
    check_refusal("second link not used", beacon, 256, TESOLVAGNA_OUT_OF_LIMITS);
    beacon = examples[0].beacon;
    beacon.has_sequence_number = false;
    check_refusal("sequence number that is not there", beacon, 256, TESOLVAGNA_OUT_OF_LIMITS);
    beacon = examples[0].beacon;
    beacon.source_is_extended = false;
    check_refusal("short source over 65535", beacon, 256, TESOLVAGNA_OUT_OF_LIMITS);
    beacon = examples[0].beacon;
    beacon.slotframe.links[1].options = 256;
    check_refusal("options over 255", beacon, 256, TESOLVAGNA_OUT_OF_LIMITS);
    check_refusal("the blank record", blank, 256, TESOLVAGNA_OUT_OF_LIMITS);
}

int main(void)
{
    size_t i;

    for (i = 0; i < sizeof examples / sizeof *examples; i++) {
        reading(&examples[i]);
        writing(&examples[i]);
    }
    refused_readings();
    refused_writings();
    fields();
    absent_fields();
    return verdict();
}
