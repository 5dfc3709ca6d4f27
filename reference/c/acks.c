/*
 * Reads and writes acknowledgements through the header, with records in which the fields of a struct differ. The exit
 * status is 0 if all answers are right.
 */
#include "check.h"

#include <string.h>

/* A frame and its record. */
struct example {
    const char *name;
    uint8_t frame[TESOLVAGNA_LONGEST_FRAME];
    size_t length;
    struct tesolvagna_ack ack;
};

/* Each pair of addresses. No two flags are the same in all of them. */
static const struct example examples[] = {
    {
        .name = "both short, sequence number",
        .frame =
            {
                0x42, 0xAA, 0x5C, 0xCD, 0xAB, /* frame control, sequence number, PAN ID */
                0x34, 0x12, 0x07, 0x00,       /* destination, source */
                0x02, 0x0F, 0x9C, 0x0F        /* time correction */
            },
        .length = 13,
        .ack =
            {
                .has_sequence_number = true,
                .sequence_number = 0x5C,
                .pan_id = 0xABCD,
                .destination = 0x1234,
                .source = 7,
                .correction = -100,
            },
    },
    {
        .name = "extended source, not acknowledged",
        .frame =
            {
                0x42, 0xEB, 0xCD, 0xAB, 0x34, 0x12,             /* frame control, PAN ID, destination */
                0x2A, 0x00, 0x00, 0xFE, 0xFF, 0x00, 0x00, 0x02, /* source */
                0x02, 0x0F, 0xFF, 0x87                          /* time correction */
            },
        .length = 18,
        .ack =
            {
                .pan_id = 0xABCD,
                .destination = 0x1234,
                .source_is_extended = true,
                .source = 0x020000FFFE00002A,
                .correction = 2047,
                .not_acknowledged = true,
            },
    },
    {
        .name = "extended destination, not acknowledged",
        .frame =
            {
                0x42, 0xAF, 0xCD, 0xAB,                         /* frame control, PAN ID */
                0x08, 0x07, 0x06, 0x05, 0x04, 0x03, 0x02, 0xF1, /* destination */
                0x07, 0x00,                                     /* source */
                0x02, 0x0F, 0x00, 0x88                          /* time correction */
            },
        .length = 18,
        .ack =
            {
                .pan_id = 0xABCD,
                .destination_is_extended = true,
                .destination = 0xF102030405060708,
                .source = 7,
                .correction = -2048,
                .not_acknowledged = true,
            },
    },
    {
        .name = "both extended, sequence number, not acknowledged",
        .frame =
            {
                0x02, 0xEE, 0x5C, 0xCD, 0xAB,                   /* frame control, sequence number, PAN ID */
                0x08, 0x07, 0x06, 0x05, 0x04, 0x03, 0x02, 0xF1, /* destination */
                0x2A, 0x00, 0x00, 0xFE, 0xFF, 0x00, 0x00, 0x02, /* source */
                0x02, 0x0F, 0x05, 0x80                          /* time correction */
            },
        .length = 25,
        .ack =
            {
                .has_sequence_number = true,
                .sequence_number = 0x5C,
                .pan_id = 0xABCD,
                .destination_is_extended = true,
                .destination = 0xF102030405060708,
                .source_is_extended = true,
                .source = 0x020000FFFE00002A,
                .correction = 5,
                .not_acknowledged = true,
            },
    },
};

static const struct tesolvagna_ack blank;

static void check_reading(const char *name, const uint8_t *frame, size_t length, uint8_t number,
                          const struct tesolvagna_ack *expected)
{
    const struct tesolvagna_ack_reading reading = tesolvagna_ack_read(frame, length);
    const struct tesolvagna_ack *found = &reading.ack;

    check(name, "number", reading.number, number);
    check(name, "has sequence number", found->has_sequence_number, expected->has_sequence_number);
    check(name, "sequence number", found->sequence_number, expected->sequence_number);
    check(name, "PAN ID", found->pan_id, expected->pan_id);
    check(name, "destination is extended", found->destination_is_extended, expected->destination_is_extended);
    check(name, "destination", found->destination, expected->destination);
    check(name, "source is extended", found->source_is_extended, expected->source_is_extended);
    check(name, "source", found->source, expected->source);
    check(name, "correction", (uint64_t)found->correction, (uint64_t)expected->correction);
    check(name, "not acknowledged", found->not_acknowledged, expected->not_acknowledged);
}

static void reading(const struct example *example)
{
    check_reading(example->name, example->frame, example->length, TESOLVAGNA_DONE, &example->ack);
    check_reading("without its last byte", example->frame, example->length - 1, TESOLVAGNA_CUT, &blank);
    check("as a beacon", "number", tesolvagna_beacon_read(example->frame, example->length).number,
          TESOLVAGNA_WRONG_TYPE);
}

static void refused_readings(void)
{
    /* As long as a frame may be, and a byte more; no acknowledgement. */
    static const uint8_t zeros[TESOLVAGNA_LONGEST_FRAME + 1];

    check_reading("fields alone", examples[0].frame, 9, TESOLVAGNA_MISSING_OR_TWICE, &blank);
    check_reading("no bytes", NULL, 0, TESOLVAGNA_CUT, &blank);
    check_reading("longest", zeros, TESOLVAGNA_LONGEST_FRAME, TESOLVAGNA_WRONG_TYPE, &blank);
    check_reading("a byte longer", zeros, TESOLVAGNA_LONGEST_FRAME + 1, TESOLVAGNA_FRAME_TOO_LONG, &blank);
}

/* Writes into a buffer of so many bytes, part of a larger one. If it is done the frame is there; nothing else changes. */
static void check_writing(const char *name, struct tesolvagna_ack ack, size_t buffer_length, uint8_t number,
                          const uint8_t *frame, size_t length)
{
    uint8_t buffer[64], copy[64];
    struct tesolvagna_written written;

    memset(buffer, 0x55, sizeof buffer);
    memset(copy, 0x55, sizeof copy);
    memcpy(copy, frame, length);
    written = tesolvagna_ack_write(buffer, buffer_length, ack);
    check(name, "number", written.number, number);
    check(name, "length", written.length, length);
    check(name, "buffer", (uint64_t)(memcmp(buffer, copy, sizeof buffer) != 0), 0);
}

/* Of a refused record nothing is written. */
static void check_refusal(const char *name, struct tesolvagna_ack ack, size_t buffer_length, uint8_t number)
{
    check_writing(name, ack, buffer_length, number, examples[0].frame, 0);
}

static void writing(const struct example *example)
{
    struct tesolvagna_written written;

    check_writing(example->name, example->ack, 64, TESOLVAGNA_DONE, example->frame, example->length);
    check_writing("just enough", example->ack, example->length, TESOLVAGNA_DONE, example->frame, example->length);
    check_refusal("a byte less", example->ack, example->length - 1, TESOLVAGNA_BUFFER_TOO_SHORT);
    written = tesolvagna_ack_write(NULL, 0, example->ack);
    check("no buffer", "number", written.number, TESOLVAGNA_BUFFER_TOO_SHORT);
    check("no buffer", "length", written.length, 0);
}

/* Limits come before the buffer's length. */
static void refused_writings(void)
{
    static const uint8_t blank_frame[] = {0x42, 0xAB, 0, 0, 0, 0, 0, 0, 0x02, 0x0F, 0, 0};
    struct tesolvagna_ack ack = examples[3].ack;

    ack.correction = 2048;
    check_refusal("correction over 2047", ack, 64, TESOLVAGNA_OUT_OF_LIMITS);
    check_refusal("correction over 2047, no buffer", ack, 0, TESOLVAGNA_OUT_OF_LIMITS);
    ack.correction = -2049;
    check_refusal("correction below -2048", ack, 64, TESOLVAGNA_OUT_OF_LIMITS);
    ack = examples[3].ack;
    ack.has_sequence_number = false;
    check_refusal("sequence number that is not there", ack, 64, TESOLVAGNA_OUT_OF_LIMITS);
    ack = examples[3].ack;
    ack.destination_is_extended = false;
    check_refusal("short destination over 65535", ack, 64, TESOLVAGNA_OUT_OF_LIMITS);
    ack = examples[3].ack;
    ack.source_is_extended = false;
    check_refusal("short source over 65535", ack, 64, TESOLVAGNA_OUT_OF_LIMITS);
    check_writing("the blank record", blank, 64, TESOLVAGNA_DONE, blank_frame, sizeof blank_frame);
}

int main(void)
{
    size_t i;

    for (i = 0; i < sizeof examples / sizeof *examples; i++) {
        reading(&examples[i]);
        writing(&examples[i]);
    }
    refused_readings();
    refused_writings();
    return verdict();
}
