/*
 * Tesolvagna: reads and writes Enhanced Beacons and Enhanced Acknowledgements, decides what a node does in a slot, and
 * keeps the table of neighbours from which it chooses its parent (6TiSCH minimal configuration, RFC 8180, over IEEE
 * 802.15.4-2015).
 *
 * Link with libtesolvagna.a: x86-64 only, from the processors of the level x86-64-v2 on, with the System V calling
 * convention.
 *
 * Every function answers on every input. Records, tables and answers are structs that go by value: the library
 * allocates nothing and keeps nothing. Only these are lent to it: received bytes, a list of links and a log, which it
 * reads, and a buffer for a frame, which it writes when the frame is done and never on a refusal.
 *
 * What a caller owes is what C itself asks for: a pointer is aligned and valid for as many entries as the length
 * behind it says, and a bool is 0 or 1. With the length 0 a pointer may be NULL.
 *
 * The first field of an answer that can be a refusal is its number: TESOLVAGNA_DONE, or which rule the input broke. The
 * padding of a struct holds nothing: compare fields, not memory, but for struct tesolvagna_content, which has none.
 */
#ifndef TESOLVAGNA_H
#define TESOLVAGNA_H

#include <stdbool.h>
#include <stddef.h>
#include <stdint.h>

/* The version of this interface, also as one number: 0x020300 is 2.3.0. */
#define TESOLVAGNA_VERSION_MAJOR 2
#define TESOLVAGNA_VERSION_MINOR 3
#define TESOLVAGNA_VERSION_PATCH 0
#define TESOLVAGNA_VERSION \
    ((TESOLVAGNA_VERSION_MAJOR << 16) | (TESOLVAGNA_VERSION_MINOR << 8) | TESOLVAGNA_VERSION_PATCH)

#ifdef __cplusplus
extern "C" {
#endif

/* The numbers that a call can give. */
enum tesolvagna_number {
    /* Done: nothing was refused. */
    TESOLVAGNA_DONE = 0,
    /* The frame is longer than 125 bytes, or would be when written. */
    TESOLVAGNA_FRAME_TOO_LONG = 1,
    /* A field, an information element or its two descriptor bytes run past what encloses them. */
    TESOLVAGNA_CUT = 2,
    /* The type is not that of what is read (a beacon's is 0, an acknowledgement's 2), or the version is not 2. */
    TESOLVAGNA_WRONG_TYPE = 3,
    /* The security bit is set. */
    TESOLVAGNA_SECURED = 4,
    /* The addressing form, a beacon's destination or the presence of information elements is not the accepted one. */
    TESOLVAGNA_ADDRESSING = 5,
    /* An information element has the wrong shape. */
    TESOLVAGNA_SHAPE = 6,
    /* A required information element is missing, or a known one is there twice. */
    TESOLVAGNA_MISSING_OR_TWICE = 7,
    /* A number is outside its limits. */
    TESOLVAGNA_OUT_OF_LIMITS = 8,
    /* The buffer is shorter than the frame to be written. */
    TESOLVAGNA_BUFFER_TOO_SHORT = 9,
    /* The neighbour is not in the table. */
    TESOLVAGNA_UNKNOWN_NEIGHBOUR = 10,
    /* The neighbour is new, and all 32 places of the table are in use. */
    TESOLVAGNA_TABLE_FULL = 11
};

/* Lengths and limits. */
enum tesolvagna_limit {
    /* The most bytes of a frame, without MIC and FCS. */
    TESOLVAGNA_LONGEST_FRAME = 125,
    /* The most links of a slotframe. */
    TESOLVAGNA_MOST_LINKS = 16,
    /* The timings of a timeslot template. */
    TESOLVAGNA_TIMINGS = 12,
    /* The most bytes of a network ID. */
    TESOLVAGNA_NETWORK_ID_BYTES = 16,
    /* The places of a neighbour table. */
    TESOLVAGNA_NEIGHBOURS = 32,
    /* The rank of a node without a parent. */
    TESOLVAGNA_NO_RANK = 65535,
    /* The most calls of a log. */
    TESOLVAGNA_MOST_CALLS = 65535
};

/*
 * Beacons
 */

/* The bits of a link's options. The slot decision looks at the first two only. */
enum tesolvagna_option {
    /* The node may transmit. */
    TESOLVAGNA_OPTION_TRANSMIT = 1,
    /* The node listens. */
    TESOLVAGNA_OPTION_RECEIVE = 2,
    /* Several nodes may transmit. */
    TESOLVAGNA_OPTION_SHARED = 4,
    /* The node keeps its time by the neighbour. */
    TESOLVAGNA_OPTION_TIMEKEEPING = 8
};

/* The timings of a timeslot template by their indices in `timings`, each in microseconds, with the standard's names. */
enum tesolvagna_timing {
    /* macTsCcaOffset */
    TESOLVAGNA_TIMING_CCA_OFFSET = 0,
    /* macTsCca */
    TESOLVAGNA_TIMING_CCA = 1,
    /* macTsTxOffset */
    TESOLVAGNA_TIMING_TX_OFFSET = 2,
    /* macTsRxOffset */
    TESOLVAGNA_TIMING_RX_OFFSET = 3,
    /* macTsRxAckDelay */
    TESOLVAGNA_TIMING_RX_ACK_DELAY = 4,
    /* macTsTxAckDelay */
    TESOLVAGNA_TIMING_TX_ACK_DELAY = 5,
    /* macTsRxWait */
    TESOLVAGNA_TIMING_RX_WAIT = 6,
    /* macTsAckWait */
    TESOLVAGNA_TIMING_ACK_WAIT = 7,
    /* macTsRxTx */
    TESOLVAGNA_TIMING_RX_TX = 8,
    /* macTsMaxAck */
    TESOLVAGNA_TIMING_MAX_ACK = 9,
    /* macTsMaxTx */
    TESOLVAGNA_TIMING_MAX_TX = 10,
    /* macTsTimeslotLength */
    TESOLVAGNA_TIMING_TIMESLOT_LENGTH = 11
};

/* A link of a slotframe. */
struct tesolvagna_link {
    /* The slot of the slotframe, counted from 0; below the slotframe's size. */
    uint16_t timeslot;
    /* The channel offset, any number. */
    uint16_t channel_offset;
    /* enum tesolvagna_option. On air this is one byte, all of which is kept: writing refuses a number over 255. */
    uint16_t options;
};

/* The TSCH synchronization information element. */
struct tesolvagna_synchronization {
    /* The absolute slot number (ASN), at most 2^40 - 1. */
    uint64_t asn;
    /* The join metric. */
    uint8_t join_metric;
};

/* The TSCH timeslot information element. */
struct tesolvagna_timeslot {
    /* The ID of the timeslot template; 0 if it comes without timings. */
    uint8_t template_id;
    /* Whether the timings come with the ID. */
    bool has_timings;
    /* enum tesolvagna_timing. The first ten are at most 65535, the last two at most 2^24 - 1; all 0 without timings. */
    uint32_t timings[TESOLVAGNA_TIMINGS];
};

/* The TSCH slotframe and link information element, of one slotframe. */
struct tesolvagna_slotframe {
    /* The slotframe's handle. */
    uint8_t handle;
    /* How many slots the slotframe has, at least 1. */
    uint16_t size;
    /* How many links it has, 1 to 16. */
    uint16_t link_count;
    /* The links, all 0 from link_count on. */
    struct tesolvagna_link links[TESOLVAGNA_MOST_LINKS];
};

/* Joining information (RFC 9032), which a beacon may leave out: then all of it is 0. */
struct tesolvagna_joining {
    /* Whether the beacon has it. */
    bool present;
    /* The R flag. */
    bool router;
    /* The P flag: whether there is the address of a join proxy. */
    bool proxied;
    /* The proxy priority, at most 127. */
    uint8_t proxy_priority;
    /* The rank priority, at most 4095. */
    uint16_t rank_priority;
    /* The PAN priority. */
    uint8_t pan_priority;
    /* The join proxy's address as a number, most significant byte first on air; 0 without the P flag. */
    uint64_t proxy_address;
    /* How many bytes the network ID has, at most 16. */
    uint8_t network_id_length;
    /* The network ID, all 0 from network_id_length on. */
    uint8_t network_id[TESOLVAGNA_NETWORK_ID_BYTES];
};

/* What an Enhanced Beacon says, in the order on air. In the blank record everything is 0. */
struct tesolvagna_beacon {
    /* Whether there is a sequence number; 0 is one too. */
    bool has_sequence_number;
    /* The sequence number, 0 without one. */
    uint8_t sequence_number;
    /* The PAN ID. */
    uint16_t pan_id;
    /* Whether the source is an extended address (64 bits) and not a short one (16 bits). */
    bool source_is_extended;
    /* The source address as a number; a short one is at most 65535. */
    uint64_t source;
    /* ASN and join metric. */
    struct tesolvagna_synchronization synchronization;
    /* The timeslot template. */
    struct tesolvagna_timeslot timeslot;
    /* The hopping sequence ID, from the channel hopping information element. */
    uint8_t hopping_sequence_id;
    /* The slotframe and its links. */
    struct tesolvagna_slotframe slotframe;
    /* Joining information, if the beacon has it. */
    struct tesolvagna_joining joining;
};

/* What reading a frame gives. */
struct tesolvagna_reading {
    /* enum tesolvagna_number */
    uint8_t number;
    /* The frame's record; the blank record on a refusal. */
    struct tesolvagna_beacon beacon;
};

/* What writing a record gives. */
struct tesolvagna_written {
    /* enum tesolvagna_number */
    uint8_t number;
    /* How many bytes the frame has, 0 on a refusal. */
    size_t length;
};

/* A part of a frame. */
struct tesolvagna_span {
    /* Where it starts, counted from the frame's first byte. */
    size_t offset;
    /* How many bytes it has. */
    size_t length;
};

/*
 * Reads an Enhanced Beacon as the radio hands it over, without MIC and FCS.
 *
 * frame, length   the received bytes; never written
 *
 * number 0        done: `beacon` is the frame's record
 * number 1 to 8   the first check that the frame fails: `beacon` is the blank record
 *
 * The checks are made in this order. Numbers are least significant byte first, except inside joining information.
 *   1  The frame has more than 125 bytes.
 *   2  It has fewer than 2 bytes.
 *   3  In the frame control field the type is not 0 or the version is not 2.
 *   4  The security bit is set.
 *   5  The destination mode is not short, the source mode neither short nor extended, PAN ID compression is 0, or
 *      information elements present is 0. The pending, acknowledge request and reserved bits are ignored.
 *   2  The rest of the MAC header's fields is cut: sequence number (unless suppressed), PAN ID, destination, source.
 *   5  The destination is not 0xFFFF.
 * Then the information elements, in the order of their bytes. An element, or its two descriptor bytes, that runs past
 * what encloses it is 2 before anything else is said of it. The frame encloses header elements and groups, a group its
 * sub-elements.
 *   Header elements (bits 0 to 6 length, 7 to 14 ID): a set bit 15 is 6. ID 0x7E ends the list, and payload elements
 *   follow; ID 0x7F or the end of the frame ends it, and none follow; either ID with a length is 6. Others are skipped.
 *   Payload elements (bits 0 to 10 length, 11 to 14 group): a clear bit 15 is 6. Group 15 ends the list, with a length
 *   it is 6; the end of the frame ends it too. Group 1, the MLME group, holds sub-elements. Group 5, the IETF group,
 *   starts with a subtype, without which it is 6; subtype 2 is joining information. Other groups and subtypes are
 *   skipped.
 *   Sub-elements are short (bit 15 clear: bits 0 to 7 length, 8 to 14 ID) or long (bit 15 set: bits 0 to 10 length, 11
 *   to 14 ID). Four are known, others are skipped. Of each the checks are made in the order in which they stand here:
 *     short 0x1A, synchronization: not 6 bytes is 6, a second one 7. ASN (5 bytes), join metric.
 *     short 0x1C, timeslot: not 1, 25 or 27 bytes is 6, a second one 7, 1 byte that is not 0 is 8. Template ID, then
 *       no timings or twelve of 2 bytes each, of which the last two have 3 in the form of 27 bytes.
 *     long 0x9, channel hopping: no byte is 6, a second one 7, more than one byte 8. Hopping sequence ID.
 *     short 0x1B, slotframe and link: under 5 bytes is 6; not 1 slotframe is 8; a length other than 5 and 5 for each
 *       link is 6; a second one is 7; size 0, no link, more than 16 links or a timeslot not below the size is 8. Number
 *       of slotframes, handle, size (2 bytes), number of links; of each link timeslot (2), channel offset (2), options.
 *   Joining information: 1 bit R, 1 bit P, 3 bits ignored, 7 bits proxy priority, 12 bits rank priority, 8 bits PAN
 *     priority, most significant first, then 8 bytes of address if P is set, then 0 to 16 bytes of network ID; another
 *     length is 6, a second one 7.
 *   7  One of the four sub-elements is missing.
 */
struct tesolvagna_reading tesolvagna_beacon_read(const uint8_t *frame, size_t length);

/*
 * Writes a record's Enhanced Beacon at the start of a buffer.
 *
 * buffer, buffer_length   where the frame goes
 * beacon                  the record
 *
 * number 0   done: the frame is the first `length` bytes of the buffer, whose later bytes are as they were
 * number 8   a field of the record is outside its limits
 * number 1   the frame would have more than 125 bytes
 * number 9   the buffer is shorter than the frame; one of just its length is enough
 *
 * The first of these that applies is given. On a refusal `length` is 0 and the buffer is as it was.
 *
 * Outside the limits are:
 *   A short source over 65535, an ASN over 2^40 - 1, a link's options over 255.
 *   A template ID that comes without timings and is not 0; one of the first ten timings over 65535; one of the last two
 *     over 2^24 - 1.
 *   Slotframe size 0, no link, more than 16 links, a timeslot that is not below the size.
 *   A proxy priority over 127, a rank priority over 4095, a network ID of more than 16 bytes.
 *   Anything but 0 where nothing is used: a sequence number that is not there, timings that are not there, links from
 *     link_count on, the proxy's address without the P flag, bytes of the network ID from network_id_length on, all of
 *     joining information that is not present.
 * A record that was read is within the limits, and takes no more bytes than its frame had. The blank record is outside:
 * it has size 0 and no link.
 *
 * The frame: frame control with type 0, version 2, PAN ID compression and information elements present, and no other
 * flag than that of a suppressed sequence number; sequence number if there is one; PAN ID; destination 0xFFFF;
 * source; header element 0x7E; one MLME group of synchronization, timeslot, channel hopping, and slotframe and link;
 * joining information, if present, in an IETF group; no group 15. Timings take the form of 25 bytes if both of the
 * last two fit in 2 bytes, else that of 27. `tesolvagna_beacon_read` gives the same record for it.
 */
struct tesolvagna_written tesolvagna_beacon_write(uint8_t *buffer, size_t buffer_length,
                                                  struct tesolvagna_beacon beacon);

/*
 * Finds the network ID in a frame, for a caller that does not want to copy it.
 *
 * frame, length   the received bytes; never written
 *
 * Offset and length are 0 if `tesolvagna_beacon_read` refuses the frame, for whatever reason, if it has no joining
 * information, and if its network ID has no bytes. No number is given.
 */
struct tesolvagna_span tesolvagna_beacon_network_id(const uint8_t *frame, size_t length);

/* What a field of a record holds. */
enum tesolvagna_content_kind {
    /* Nothing: the field is absent. */
    TESOLVAGNA_CONTENT_ABSENT = 0,
    /* A number. A flag is 0 or 1. */
    TESOLVAGNA_CONTENT_NUMBER = 1,
    /* A short address, as a number. */
    TESOLVAGNA_CONTENT_SHORT = 2,
    /* An extended address, as a number. */
    TESOLVAGNA_CONTENT_EXTENDED = 3,
    /* Octets. */
    TESOLVAGNA_CONTENT_OCTETS = 4
};

/*
 * The fields of a record by their indices, in the order on air, with the names that the program `compare` prints. Those
 * that can be absent say when; every other field is always there.
 */
enum tesolvagna_field {
    /* sequence-number: absent without one */
    TESOLVAGNA_FIELD_SEQUENCE_NUMBER = 0,
    /* pan-id */
    TESOLVAGNA_FIELD_PAN_ID = 1,
    /* source: a short or an extended address */
    TESOLVAGNA_FIELD_SOURCE = 2,
    /* asn */
    TESOLVAGNA_FIELD_ASN = 3,
    /* join-metric */
    TESOLVAGNA_FIELD_JOIN_METRIC = 4,
    /* template-id */
    TESOLVAGNA_FIELD_TEMPLATE_ID = 5,
    /* The first of twelve timings, in the order of enum tesolvagna_timing: timing-cca-offset, timing-cca,
     * timing-tx-offset, timing-rx-offset, timing-rx-ack-delay, timing-tx-ack-delay, timing-rx-wait, timing-ack-wait,
     * timing-rx-tx, timing-max-ack, timing-max-tx, timing-timeslot-length. Absent if the template ID comes alone. */
    TESOLVAGNA_FIELD_TIMINGS = 6,
    /* hopping-sequence-id */
    TESOLVAGNA_FIELD_HOPPING_SEQUENCE_ID = 18,
    /* slotframe-handle */
    TESOLVAGNA_FIELD_SLOTFRAME_HANDLE = 19,
    /* slotframe-size */
    TESOLVAGNA_FIELD_SLOTFRAME_SIZE = 20,
    /* link-count */
    TESOLVAGNA_FIELD_LINK_COUNT = 21,
    /* The first of 48, three for each of 16 links: link-0-timeslot, link-0-channel-offset, link-0-options,
     * link-1-timeslot and so on. Absent from link_count on. */
    TESOLVAGNA_FIELD_LINKS = 22,
    /* joining-r: the R flag; this and all that follow are absent without joining information */
    TESOLVAGNA_FIELD_JOINING_R = 70,
    /* joining-p: the P flag */
    TESOLVAGNA_FIELD_JOINING_P = 71,
    /* proxy-priority */
    TESOLVAGNA_FIELD_PROXY_PRIORITY = 72,
    /* rank-priority */
    TESOLVAGNA_FIELD_RANK_PRIORITY = 73,
    /* pan-priority */
    TESOLVAGNA_FIELD_PAN_PRIORITY = 74,
    /* proxy-address: an extended address, absent without the P flag too */
    TESOLVAGNA_FIELD_PROXY_ADDRESS = 75,
    /* network-id: octets */
    TESOLVAGNA_FIELD_NETWORK_ID = 76,
    /* How many fields there are. */
    TESOLVAGNA_FIELDS = 77
};

/* The content of a field. What its kind does not use is 0. There is no padding: contents may be compared as memory. */
struct tesolvagna_content {
    /* enum tesolvagna_content_kind */
    uint32_t kind;
    /* How many octets there are, 0 for another kind. */
    uint32_t length;
    /* The number, or the address; 0 for another kind. */
    uint64_t number;
    /* The octets, as the record has them; all 0 for another kind. */
    uint8_t octets[TESOLVAGNA_NETWORK_ID_BYTES];
};

/*
 * A field of a record, to list what a beacon says, or in what two of them differ.
 *
 * beacon   the record
 * index    enum tesolvagna_field; absent from TESOLVAGNA_FIELDS on
 *
 * Two records that were read, or that can be written, have the same contents at all indices exactly when they are equal.
 * Their frames may differ all the same: in bits that are ignored, in elements that are skipped, in the order of elements
 * and in the form of the timings.
 *
 * Nothing is refused. A record outside the limits of writing is listed as it is, with these exceptions: a sequence
 * number that is not there is absent whatever its number, and of a short source only the lower 16 bits are taken.
 */
struct tesolvagna_content tesolvagna_beacon_field(struct tesolvagna_beacon beacon, size_t index);

/*
 * Acknowledgements
 */

/* What an Enhanced Acknowledgement says, in the order on air. In the blank record everything is 0. */
struct tesolvagna_ack {
    /* Whether there is a sequence number; 0 is one too. */
    bool has_sequence_number;
    /* The sequence number, 0 without one. */
    uint8_t sequence_number;
    /* The PAN ID. */
    uint16_t pan_id;
    /* Whether the destination is an extended address (64 bits) and not a short one (16 bits). */
    bool destination_is_extended;
    /* The destination address as a number; a short one is at most 65535. */
    uint64_t destination;
    /* Whether the source is an extended address. */
    bool source_is_extended;
    /* The source address as a number; a short one is at most 65535. */
    uint64_t source;
    /* The time correction in microseconds, -2048 to 2047. */
    int32_t correction;
    /* Whether it is a negative acknowledgement, by bit 15 of the time correction. */
    bool not_acknowledged;
};

/* What reading a frame gives. */
struct tesolvagna_ack_reading {
    /* enum tesolvagna_number */
    uint8_t number;
    /* The frame's record; the blank record on a refusal. */
    struct tesolvagna_ack ack;
};

/*
 * Reads an Enhanced Acknowledgement as the radio hands it over, without MIC and FCS.
 *
 * frame, length   the received bytes; never written
 *
 * number 0        done: `ack` is the frame's record
 * number 1 to 7   the first check that the frame fails: `ack` is the blank record, all 0
 *
 * The checks are made in this order. Numbers are least significant byte first.
 *   1  The frame has more than 125 bytes.
 *   2  It has fewer than 2 bytes.
 *   3  In the frame control field the type is not 2 or the version is not 2.
 *   4  The security bit is set.
 *   5  The destination mode or the source mode is neither short nor extended, PAN ID compression is not 1 (not 0 where
 *      both addresses are extended), or information elements present is 0. The pending, acknowledge request and
 *      reserved bits are ignored.
 *   2  The rest of the MAC header's fields is cut: sequence number (unless suppressed), PAN ID, destination, source. No
 *      address is refused for its value.
 * Then the header elements (bits 0 to 6 length, 7 to 14 ID), in the order of their bytes. An element, or its two
 * descriptor bytes, that runs past the frame is 2 before anything else is said of it; then a set bit 15 is 6.
 *   ID 0x7E or 0x7F ends the list, and what follows is ignored, payload elements too; either ID with a length is 6. The
 *   end of the frame ends the list too.
 *   ID 0x1E, the time correction: not 2 bytes is 6, a second one 7. Its bits 0 to 11 are the correction in two's
 *   complement, 12 to 14 are ignored, and 15 is set in a negative acknowledgement.
 *   Others are skipped.
 *   7  The time correction is missing.
 */
struct tesolvagna_ack_reading tesolvagna_ack_read(const uint8_t *frame, size_t length);

/*
 * Writes a record's Enhanced Acknowledgement at the start of a buffer.
 *
 * buffer, buffer_length   where the frame goes
 * ack                     the record
 *
 * number 0   done: the frame is the first `length` bytes of the buffer, whose later bytes are as they were
 * number 8   a field of the record is outside its limits
 * number 9   the buffer is shorter than the frame; one of just its length is enough
 *
 * The first of these that applies is given. On a refusal `length` is 0 and the buffer is as it was. No frame is too
 * long: it has 12 to 25 bytes.
 *
 * Outside the limits are:
 *   A short destination or source over 65535.
 *   A correction below -2048 or over 2047.
 *   Anything but 0 for a sequence number that is not there.
 * A record that was read is within the limits, and takes no more bytes than its frame had. The blank record is within
 * them too: it acknowledges, with the correction 0.
 *
 * The frame: frame control with type 2, version 2, PAN ID compression unless both addresses are extended, information
 * elements present, and no other flag than that of a suppressed sequence number; sequence number if there is one; PAN
 * ID; destination; source; header element 0x1E, with bits 12 to 14 of its content clear; no terminator.
 * `tesolvagna_ack_read` gives the same record for it.
 */
struct tesolvagna_written tesolvagna_ack_write(uint8_t *buffer, size_t buffer_length, struct tesolvagna_ack ack);

/*
 * The neighbour table
 */

/* A place of the table. A free place is all 0. */
struct tesolvagna_neighbour {
    /* The neighbour's identifier; 0 is one too. */
    uint64_t id;
    /* The rank that it advertised. */
    uint16_t rank;
    /* The attempts to send to it that are counted, at most 255. */
    uint16_t attempts;
    /* The acknowledgements that are counted, at most `attempts`. */
    uint16_t acknowledged;
    /* Whether a neighbour has the place. */
    bool in_use;
};

/*
 * The held parent and the neighbours. `tesolvagna_table_init` gives a table to start with, and each call gives back
 * the one to go on with: `table = answer.table` is right after a refusal too.
 *
 * Every call refuses with 8, and gives back as it is, a table with attempts over 255, more acknowledged than
 * attempts, a free place that is not all 0, an identifier at two places in use, a held parent that is at none of
 * them, or a `parent` that is not 0 where none is held.
 */
struct tesolvagna_table {
    /* Whether a parent is held. */
    bool has_parent;
    /* The held parent's identifier, 0 where none is held. */
    uint64_t parent;
    /* The places, free or in use. */
    struct tesolvagna_neighbour neighbours[TESOLVAGNA_NEIGHBOURS];
};

/* What a call gives. */
struct tesolvagna_table_answer {
    /* enum tesolvagna_number */
    uint8_t number;
    /* The table after the call; on a refusal the one that was given. */
    struct tesolvagna_table table;
};

/* What an evaluation gives. */
struct tesolvagna_evaluation {
    /* enum tesolvagna_number */
    uint8_t number;
    /* Whether another parent is held than before; none counts as a value of its own. */
    bool changed;
    /* The own rank: 65535 without a parent, and on a refusal. */
    uint16_t rank;
    /* Whether a parent is held now. */
    bool has_parent;
    /* Its identifier, 0 without one. These two are also in `table`. */
    uint64_t parent;
    /* The table after the call; on a refusal the one that was given. */
    struct tesolvagna_table table;
};

/* The calls of a log. */
enum tesolvagna_call {
    /* tesolvagna_table_advertise */
    TESOLVAGNA_CALL_ADVERTISE = 0,
    /* tesolvagna_table_report */
    TESOLVAGNA_CALL_REPORT = 1,
    /* tesolvagna_table_forget */
    TESOLVAGNA_CALL_FORGET = 2,
    /* tesolvagna_table_evaluate */
    TESOLVAGNA_CALL_EVALUATE = 3
};

/*
 * What a log of calls comes to. The cost of a held parent is its rank and `tesolvagna_increment` of its counters, and 0
 * where none is held.
 *
 * Where `applies` is true, 641 * changes + last_cost <= first_cost + rises, and changes <= 101 if rises is 0.
 */
struct tesolvagna_replay {
    /* enum tesolvagna_number */
    uint8_t number;
    /* Whether there was an evaluation, and the parent held on entry to each one was eligible there. */
    bool applies;
    /* How many evaluations there were. */
    uint32_t evaluations;
    /* How many evaluations changed the held parent. */
    uint32_t changes;
    /* The held parent's cost on entry to an evaluation less its cost on exit from the one before, where that is not
     * negative: all of these added up. */
    uint64_t rises;
    /* The held parent's cost on entry to the first evaluation, 0 without an evaluation. */
    uint32_t first_cost;
    /* The held parent's cost on exit from the last evaluation, 0 without an evaluation. */
    uint32_t last_cost;
    /* The table after the last call; on a refusal the one that was given. */
    struct tesolvagna_table table;
};

/* The empty table: all places free, no parent held. Nothing is refused. */
struct tesolvagna_table tesolvagna_table_init(void);

/*
 * Sets the rank of neighbour `id`. A new neighbour gets the lowest-numbered free place, with no attempts.
 *
 * number 0    done
 * number 8    the table is refused
 * number 11   the neighbour is new, and all 32 places are in use
 *
 * On a refusal the table is given back as it is. Every rank is taken.
 */
struct tesolvagna_table_answer tesolvagna_table_advertise(struct tesolvagna_table table, uint64_t id, uint16_t rank);

/*
 * Counts 1 to 4 attempts to send a frame to neighbour `id`, and one acknowledgement if `acknowledged` is true. Where
 * the attempts would pass 255, both counters of the neighbour are halved first, rounding down.
 *
 * number 0    done
 * number 8    the table is refused, or `attempts` is not 1 to 4
 * number 10   the neighbour is not in the table
 *
 * The first of these that applies is given. On a refusal the table is given back as it is.
 */
struct tesolvagna_table_answer tesolvagna_table_report(struct tesolvagna_table table, uint64_t id, uint32_t attempts,
                                                       bool acknowledged);

/*
 * Frees the place of neighbour `id`. If it was the held parent, none is held now.
 *
 * number 0    done
 * number 8    the table is refused
 * number 10   the neighbour is not in the table
 *
 * On a refusal the table is given back as it is.
 */
struct tesolvagna_table_answer tesolvagna_table_forget(struct tesolvagna_table table, uint64_t id);

/*
 * Chooses the parent and gives the own rank, which is the parent's cost.
 *
 * The cost of a neighbour is its rank and `tesolvagna_increment` of its counters. A neighbour is eligible with a rank
 * of at least 256, no attempts yet or at least 1 acknowledged, 3 * attempts at most 11 * acknowledged and a cost of at
 * most 65534. The best has the least cost, and among equals the lower identifier. The held parent is changed for the
 * best if none is held, if it is not eligible, or if its cost is more than 640 over the best one's. With no eligible
 * neighbour no parent is held and the own rank is 65535; that is no refusal.
 *
 * So a fresh node joins through the first neighbour that advertises a rank of 256 to 64766, with that rank and 768 as
 * its own. A neighbour whose first attempts fail is not eligible before one is acknowledged.
 *
 * number 0   done: the table has the parent, and nothing else of it is changed
 * number 8   the table is refused
 *
 * On a refusal the rank is 65535, `changed` is false, and table and parent are given back as they are.
 */
struct tesolvagna_evaluation tesolvagna_table_evaluate(struct tesolvagna_table table);

/*
 * Runs a log of calls, each on the table that the call before it gave back. A log is four lists with one row for each
 * call, and is only read:
 *
 * kinds    enum tesolvagna_call
 * ids      the neighbour of all calls but an evaluation
 * values   the rank of an advertisement, the attempts of a report
 * flags    1 if a report was acknowledged, else 0
 *
 * Each list comes with its length. What a call does not take is not looked at, except that a flag is 0 or 1 in every
 * row. Calls that are refused stay in the log and change nothing.
 *
 * number 0   done
 * number 8   the table is refused; the lists are not equally long; there are over 65535 rows; a kind is over 3 or a
 *            flag over 1
 *
 * On a refusal all counts are 0, `applies` is false, and the table is given back as it is.
 */
struct tesolvagna_replay tesolvagna_table_replay(struct tesolvagna_table table, const uint8_t *kinds, size_t kind_count,
                                                 const uint64_t *ids, size_t id_count, const uint16_t *values,
                                                 size_t value_count, const uint8_t *flags, size_t flag_count);

/*
 * Slot and channel
 */

/* What a node does in a slot. */
enum tesolvagna_action {
    /* Nothing: the radio is off. */
    TESOLVAGNA_SLEEP = 0,
    /* Send the frame that waits. */
    TESOLVAGNA_TRANSMIT = 1,
    /* Wait for a frame. */
    TESOLVAGNA_LISTEN = 2
};

/* A slot decision. All but the number is 0 on a refusal. */
struct tesolvagna_slot {
    /* enum tesolvagna_number */
    uint8_t number;
    /* enum tesolvagna_action */
    uint8_t action;
    /* The channel, 11 to 26; 0 asleep. */
    uint8_t channel;
    /* The link's index in the list, counted from 0; 0 asleep. */
    uint8_t index;
};

/*
 * Decides what to do in slot `asn`.
 *
 * links, link_count   the links of the slotframe, in their order; never written
 * size                how many slots the slotframe has; also over 65535 it is taken as it is
 * sequence_id         the hopping sequence ID
 * asn                 the absolute slot number
 * waits               whether a frame waits to be sent
 *
 * A link is active if its timeslot is `asn` mod `size`. If a frame waits and an active link has the transmit option:
 * transmit on the first such link. Else, if an active link has the receive option: listen on the first such link.
 * Else sleep. The channel is that of `tesolvagna_channel` for the link. Other option bits play no part, those over
 * 255 neither.
 *
 * number 0   done
 * number 8   `size` is 0, `link_count` is not 1 to 16, a link's timeslot is not below `size`, `sequence_id` is not 0,
 *            or `asn` is over 2^40 - 1
 *
 * A refusal is to sleep: action, channel and index are 0.
 */
struct tesolvagna_slot tesolvagna_slot_decide(const struct tesolvagna_link *links, size_t link_count, uint32_t size,
                                              uint32_t sequence_id, uint64_t asn, bool waits);

/*
 * The channel, 11 to 26, of a slot and a channel offset: entry (asn + channel_offset) mod 16, counted from 0, of the
 * default hopping sequence 16, 17, 23, 18, 26, 15, 25, 22, 19, 11, 12, 13, 24, 14, 20, 21. Nothing is refused: every
 * `asn` has a channel, also one over 2^40 - 1.
 */
uint8_t tesolvagna_channel(uint64_t asn, uint16_t channel_offset);

/*
 * Rank
 */

/*
 * How much a neighbour adds to its rank, after so many attempts of which so many were acknowledged: the smallest whole
 * number that is not below 256 * (3 * attempts - 2 * acknowledged) / acknowledged, and 0 where 2 * acknowledged is over
 * 3 * attempts. Where `acknowledged` is 0 it is 768 before the first attempt, and 0 after it; a neighbour that was
 * tried and never acknowledged is not eligible. Nothing is refused.
 */
uint32_t tesolvagna_increment(uint16_t attempts, uint16_t acknowledged);

/* What the question for a join metric gives. */
struct tesolvagna_metric {
    /* enum tesolvagna_number */
    uint8_t number;
    /* The join metric, 0 on a refusal. */
    uint8_t metric;
};

/*
 * The join metric that a node of this rank puts into its beacons: rank / 256 - 1, rounded down.
 *
 * number 0   done, for the ranks 256 to 65534
 * number 8   any other rank: such a node sends no beacon
 *
 * On a refusal the metric is 0.
 */
struct tesolvagna_metric tesolvagna_join_metric(uint32_t rank);

#ifdef __cplusplus
}
#endif

/* The sizes that the library was built with; a compiler that is told to lay structs out otherwise stops here. */
#define TESOLVAGNA_SIZE(name, size) \
    typedef char tesolvagna_size_of_##name[sizeof(struct tesolvagna_##name) == (size) ? 1 : -1]

TESOLVAGNA_SIZE(link, 6);
TESOLVAGNA_SIZE(synchronization, 16);
TESOLVAGNA_SIZE(timeslot, 52);
TESOLVAGNA_SIZE(slotframe, 102);
TESOLVAGNA_SIZE(joining, 40);
TESOLVAGNA_SIZE(beacon, 232);
TESOLVAGNA_SIZE(reading, 240);
TESOLVAGNA_SIZE(written, 16);
TESOLVAGNA_SIZE(span, 16);
TESOLVAGNA_SIZE(content, 32);
TESOLVAGNA_SIZE(ack, 40);
TESOLVAGNA_SIZE(ack_reading, 48);
TESOLVAGNA_SIZE(neighbour, 16);
TESOLVAGNA_SIZE(table, 528);
TESOLVAGNA_SIZE(table_answer, 536);
TESOLVAGNA_SIZE(evaluation, 544);
TESOLVAGNA_SIZE(replay, 560);
TESOLVAGNA_SIZE(slot, 4);
TESOLVAGNA_SIZE(metric, 2);

#undef TESOLVAGNA_SIZE

#endif
