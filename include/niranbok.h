/* Niranbok: the transport streams multiplexing frame (TSMF) of ITU-T J.183, for C.
 *
 * Every call answers, whatever its bytes and numbers are. A call that can refuse answers 0, or the
 * refusal's number; refused, it writes no byte of what it was lent, and the counts and the event
 * that it answers are 0. Beside refusal 7 a call that reads headers answers a remainder (see
 * NIRANBOK_REFUSED_CRC). Nothing is allocated or kept between calls: a composer's and a receiver's
 * state is the caller's bytes.
 *
 * A pointer comes with its length in bytes. It points to that many bytes, also where a call will
 * refuse the length, and is not null, also where the length is 0. Pointers to one number (size_t *,
 * uint8_t *event, uint32_t *remainder) point to one, which every call writes, refused or not. The things that
 * one call is lent must not overlap: not a frame and the stream that is put into it, not a state and a
 * store, and not a number that is written and a buffer.
 *
 * Calls may run at the same time in different threads, as long as what one of them writes is lent to no
 * other: the library has no memory of its own, so there is nothing to lock and nothing to set up. Two
 * threads that share a state, a frame, a store or a group have to take turns.
 *
 * Settings and states are bytes in the layouts below, numbers of 16 bits with the high byte first.
 * They may hold anything: what is out of range is refused. A saved state may be kept and given
 * again; a caller who changes its bytes gets an answer, and not always a refusal. */
#ifndef NIRANBOK_H
#define NIRANBOK_H

#include <stdbool.h>
#include <stddef.h>
#include <stdint.h>

#ifdef __cplusplus
extern "C" {
#endif

/* Kinds of headers, and so of frames. The caller says the kind; a header does not show it. A number above 2 is
 * no kind. (NIRANBOK_SHORT, below, is an event and not a kind.)
 *
 *              slots  streams  frame_type  private data  besides
 *     plain       52       15           1      85 bytes
 *     extended    52       15      1 or 2          none  auxiliary information and the bonding fields
 *     short       40        7           3     131 bytes */
#define NIRANBOK_PLAIN 0
#define NIRANBOK_EXTENDED 1
#define NIRANBOK_SHORT_FRAME 2

/* Lengths in bytes. Settings and states are as long for every kind. A frame and a store have the length of
 * their kind, which stands in the state that a call is lent. Where no kind stands there, the length of the
 * plain kind is the right one, and then the state is a 17. */
#define NIRANBOK_PACKET_BYTES 188
#define NIRANBOK_FRAME_BYTES 9964       /* plain and extended: a header and 52 slots; slot i is the 188 bytes at 188 * i */
#define NIRANBOK_STORE_BYTES 9776       /* plain and extended: a receiver's store; slot i at 188 * (i - 1) */
#define NIRANBOK_SHORT_FRAME_BYTES 7708 /* short: a header and 40 slots, slot i at the same place */
#define NIRANBOK_SHORT_STORE_BYTES 7520 /* short: a receiver's store, slot i at the same place */
#define NIRANBOK_SETTING_BYTES 298      /* a setting's layout, below */
#define NIRANBOK_COMPOSER_BYTES 436     /* a composer's state */
#define NIRANBOK_RECEIVER_BYTES 58      /* a receiver's state */
#define NIRANBOK_PRIVATE_DATA_BYTES 85  /* plain: the private data, at the front of their place in a setting */
#define NIRANBOK_SHORT_PRIVATE_DATA_BYTES 131 /* short: the same, all of their place */

/* The most stack that a call takes on x86-64, its return address counted: spreading and gathering. Header
 * writing and closing a frame take 200 bytes at most, reading a header, putting packets and receiving one 256,
 * reading the headers of a group 512. `make stack` measures them all. A compiler for another processor takes
 * more or less. */
#define NIRANBOK_STACK_BYTES 1536

/* A setting: where each field starts. The places are the same in every kind. Every field may hold what its
 * range below allows. What the kind does not have is zeros, and anything else there is a 17:
 *   - plain: private data from byte 85 on (counted from 0), auxiliary information, the bonding fields;
 *   - extended: all private data;
 *   - short: streams 8 to 15 (their bits of the availability, their identifiers and statuses), slots 41 to 52,
 *     auxiliary information, the bonding fields.
 * The bonding fields are those from the group's id on. Reading a header gives zeros in all these parts.
 *
 * Stream r has the same bit of the availability in every kind, bit 15 - r. So the low eight bits are zeros in
 * a short setting.
 *
 * In a header emergency_indicator is the last bit of byte 72, in a short one of byte 37, and the bit before it
 * is reserved. Also reserved are the three bits before the sync (the highest of byte 4), the bit behind the
 * availability (the last of byte 8, in a short header of byte 7), and bytes 131 to 183 of an extended header.
 * Reserved bits are written as ones, and a header in which one is 0 is refused by 20: other makers keep flags
 * of their own there. So the 188 bytes of a header that was read are those that writing its setting with the
 * same PID and kind gives.
 *
 * Before request K1 the two last bits of byte 72 stood the other way round. A header that was written then is
 * a 20 if it announced no emergency, and reads as before if it announced one. */
#define NIRANBOK_CONTINUITY_COUNTER 0    /* 1 byte */
#define NIRANBOK_VERSION_NUMBER 1        /* 1 byte */
#define NIRANBOK_SLOT_ALLOCATION_TYPE 2  /* 1 byte */
#define NIRANBOK_FRAME_TYPE 3            /* 1 byte */
#define NIRANBOK_AVAILABILITY 4          /* 2 bytes; stream 1 is bit 14, stream 7 is bit 8, stream 15 is bit 0 */
#define NIRANBOK_TS_ID 6                 /* 2 bytes for each of streams 1 to 15 */
#define NIRANBOK_ORIGINAL_NETWORK_ID 36  /* 2 bytes for each of streams 1 to 15 */
#define NIRANBOK_RECEIVE_STATUS 66       /* 1 byte for each of streams 1 to 15 */
#define NIRANBOK_EMERGENCY_INDICATOR 81  /* 1 byte */
#define NIRANBOK_RELATIVE_TS_NUMBER 82   /* 1 byte for each of slots 1 to 52; 0: no stream */
#define NIRANBOK_PRIVATE_DATA 134        /* 131 bytes, of a short header; the first 85 of a plain one */
#define NIRANBOK_AUXILIARY 265           /* 28 bytes, of an extended header, as the rest is */
#define NIRANBOK_GROUP_ID 293            /* 1 byte */
#define NIRANBOK_NUMBER_OF_CARRIERS 294  /* 1 byte */
#define NIRANBOK_CARRIER_SEQUENCE 295    /* 1 byte */
#define NIRANBOK_NUMBER_OF_FRAMES 296    /* 1 byte */
#define NIRANBOK_FRAME_POSITION 297      /* 1 byte */

/* The range of each field that a caller sets, as the program `limits` prints them, with the refusal that
 * any other value gets, in a header of a kind that has the field. Where the short kind has another range,
 * SHORT stands in its name. Plain and short headers have private data, and extended ones have what is below
 * that, from the auxiliary information to the frame's position. In a setting of a kind that does not have a
 * field, it is 0, and anything else is a 17. Identifiers, private data, auxiliary information and the group
 * id may be anything in their kind. A carrier's sequence is at most the number of carriers, a frame's
 * position at most the number of frames. */
#define NIRANBOK_HEADER_PID_FIRST 16 /* 2 */
#define NIRANBOK_HEADER_PID_LAST 8190
#define NIRANBOK_CONTINUITY_COUNTER_FIRST 0 /* 17; in begin the run's own counter is used */
#define NIRANBOK_CONTINUITY_COUNTER_LAST 15
#define NIRANBOK_VERSION_NUMBER_FIRST 0 /* 17; in begin the run's own version is used */
#define NIRANBOK_VERSION_NUMBER_LAST 7
#define NIRANBOK_SLOT_ALLOCATION_TYPE_FIRST 0 /* 17 */
#define NIRANBOK_SLOT_ALLOCATION_TYPE_LAST 1
#define NIRANBOK_FRAME_TYPE_PLAIN_FIRST 1 /* 8, and 17 above 15 */
#define NIRANBOK_FRAME_TYPE_PLAIN_LAST 1
#define NIRANBOK_FRAME_TYPE_EXTENDED_FIRST 1 /* 8, and 17 above 15 */
#define NIRANBOK_FRAME_TYPE_EXTENDED_LAST 2
#define NIRANBOK_FRAME_TYPE_SHORT_FIRST 3 /* 8, and 17 above 15 */
#define NIRANBOK_FRAME_TYPE_SHORT_LAST 3
#define NIRANBOK_AVAILABILITY_FIRST 0 /* 17 */
#define NIRANBOK_AVAILABILITY_LAST 32767
#define NIRANBOK_AVAILABILITY_SHORT_FIRST 0 /* 17; multiples of 256 only: streams 8 to 15 have no bit */
#define NIRANBOK_AVAILABILITY_SHORT_LAST 32512
#define NIRANBOK_TS_ID_FIRST 0
#define NIRANBOK_TS_ID_LAST 65535
#define NIRANBOK_ORIGINAL_NETWORK_ID_FIRST 0
#define NIRANBOK_ORIGINAL_NETWORK_ID_LAST 65535
#define NIRANBOK_RECEIVE_STATUS_FIRST 0 /* 17 */
#define NIRANBOK_RECEIVE_STATUS_LAST 3
#define NIRANBOK_EMERGENCY_INDICATOR_FIRST 0 /* 17 */
#define NIRANBOK_EMERGENCY_INDICATOR_LAST 1
#define NIRANBOK_RELATIVE_TS_NUMBER_FIRST 0 /* 17 */
#define NIRANBOK_RELATIVE_TS_NUMBER_LAST 15
#define NIRANBOK_RELATIVE_TS_NUMBER_SHORT_FIRST 0 /* 17 */
#define NIRANBOK_RELATIVE_TS_NUMBER_SHORT_LAST 7
#define NIRANBOK_PRIVATE_DATA_FIRST 0 /* plain and short headers; else 0 */
#define NIRANBOK_PRIVATE_DATA_LAST 255
#define NIRANBOK_AUXILIARY_FIRST 0 /* extended headers, and so down to the frame's position; else 0 */
#define NIRANBOK_AUXILIARY_LAST 255
#define NIRANBOK_GROUP_ID_FIRST 0
#define NIRANBOK_GROUP_ID_LAST 255
#define NIRANBOK_NUMBER_OF_CARRIERS_FIRST 1 /* 11 */
#define NIRANBOK_NUMBER_OF_CARRIERS_LAST 8
#define NIRANBOK_CARRIER_SEQUENCE_FIRST 1 /* 11 */
#define NIRANBOK_CARRIER_SEQUENCE_LAST 8
#define NIRANBOK_NUMBER_OF_FRAMES_FIRST 3 /* 11 */
#define NIRANBOK_NUMBER_OF_FRAMES_LAST 4
#define NIRANBOK_FRAME_POSITION_FIRST 1 /* 11 */
#define NIRANBOK_FRAME_POSITION_LAST 4
#define NIRANBOK_SLOT_FIRST 1 /* the slots of a plan */
#define NIRANBOK_SLOT_LAST 52
#define NIRANBOK_SLOT_SHORT_FIRST 1 /* the same in a short run; slots 41 to 52 of its plan hold 0 */
#define NIRANBOK_SLOT_SHORT_LAST 40
#define NIRANBOK_STREAM_FIRST 1 /* 17; the stream of put and hand out */
#define NIRANBOK_STREAM_LAST 15
#define NIRANBOK_STREAM_SHORT_FIRST 1 /* 17; the same in a short run */
#define NIRANBOK_STREAM_SHORT_LAST 7
#define NIRANBOK_CARRIERS_FIRST 1 /* 17; the carriers of spread and gather */
#define NIRANBOK_CARRIERS_LAST 8

/* Refusals, in the order in which a call asks.
 *
 * The remainder: what bytes 4 to 187 of a header leave in the CRC register, so 0 if its CRC is right. Sites
 * that got the same bytes see the same number. Calls that can answer 7 write it: beside 7 the remainder of the
 * refused header, which is never 0; beside any other refusal, and beside 0, it is 0. A receiver writes it
 * beside NIRANBOK_BROKEN (see there). To people it is shown as eight lower-case hexadecimal digits, as the lister
 * and the tools print it. */
#define NIRANBOK_REFUSED_LENGTH 1              /* what is lent is not of its length; a stream is no multiple of 188, a group none of 9,964 */
#define NIRANBOK_REFUSED_HEADER_PID 2          /* header PID outside 16 to 8,190 */
#define NIRANBOK_REFUSED_OUT_OF_RANGE 17       /* a field, a kind, a number of a state, a stream, a carrier count out of range */
#define NIRANBOK_REFUSED_NO_FRAME 16           /* put or close with no open frame, hand out with none ready */
#define NIRANBOK_REFUSED_SYNC_BYTE 3           /* the first byte is not 0x47 */
#define NIRANBOK_REFUSED_OTHER_PID 4           /* the PID is not the header PID */
#define NIRANBOK_REFUSED_FIXED_BITS 5          /* bits 000 or 0001 differ */
#define NIRANBOK_REFUSED_SYNC_BITS 6           /* the 13 sync bits differ */
#define NIRANBOK_REFUSED_CRC 7                 /* the CRC is wrong; the remainder says what it left */
#define NIRANBOK_REFUSED_RESERVED_BITS 20      /* a reserved bit is 0; where headers are read */
#define NIRANBOK_REFUSED_FRAME_TYPE 8          /* frame_type is not allowed */
#define NIRANBOK_REFUSED_UNAVAILABLE_NUMBER 9  /* a slot has the number of an unavailable stream */
#define NIRANBOK_REFUSED_EQUAL_IDENTIFIERS 10  /* two available streams have equal identifier pairs */
#define NIRANBOK_REFUSED_BONDING_FIELDS 11     /* number_of_carriers, carrier_sequence, number_of_frames or frame_position */
#define NIRANBOK_REFUSED_GROUP 14              /* the headers of a group do not stand as they should, or frames are missing */
#define NIRANBOK_REFUSED_UNAVAILABLE_STREAM 13 /* put for an unavailable stream; no header of a group carries the pair */
#define NIRANBOK_REFUSED_ROOM 15               /* a buffer is too short; a spread stream is not as long as its slots */
#define NIRANBOK_REFUSED_UNFIT_PACKET 12       /* a packet to be placed lacks 0x47 or bears the header PID */

/* A composer's state, for who keeps one: header PID (2 bytes), kind, counter and version of the last
 * closed header (15 and 7 before the first), what that header announced (slot_allocation_type,
 * frame_type, 2 bytes of availability, 30 of TS_id, 30 of original_network_id, 15 of receive_status,
 * emergency_indicator), whether a frame is open (0 or 1), its setting (298 bytes, as begin was given
 * it), and for each of slots 1 to 52 whether it is filled (0 or 1). A kind above 2 or a mark above 1 is
 * a 17. While no frame is open, the setting and the marks are not looked at beyond that: they may be
 * anything before a call, and start and close leave zeros there. What was announced keeps to the ranges of
 * the kind: in a short run it has zeros for streams 8 to 15, and anything else there is a 17.
 *
 * A receiver's state: header PID (2 bytes), kind, stage (0 waiting, 1 a frame is open, 2 the frame
 * before the open one is ready), the open frame's counter (0 while waiting), how many packets of it
 * are stored (0 in stages 0 and 2), 52 slots' numbers by its header (26 bytes, 4 bits for each slot in
 * every kind: slot 1 in the high half of the first byte, slot 2 in its low half), and by the header before
 * it (26 bytes). Only a good header changes the slots' numbers: it moves the first 26 bytes to the last
 * and writes its own. When a frame is dropped and none opens, both stay as they were, though no frame
 * has them any more. A kind above 2, a stage above 2, a counter above 15, more packets than the kind has
 * slots, or anything but 0 where 0 is said is a 17. In a short run a slot's number above 7 is a 17 too, and
 * so is anything but 0 for slots 41 to 52, in both lists. */

/* What receiving a packet did. Beside NIRANBOK_BROKEN the remainder is that of a header which the reader refuses
 * by 7; for any other cause it is 0, and so it is beside every other event. A receiver that waits answers
 * NIRANBOK_NOTHING and 0, also for a header with a wrong CRC. */
#define NIRANBOK_NOTHING 0 /* no frame is open, or the call was refused */
#define NIRANBOK_OPENED 1  /* a frame opened */
#define NIRANBOK_STORED 2  /* the packet was stored in the next slot */
#define NIRANBOK_READY 3   /* the frame before is ready, and a new one opened */
#define NIRANBOK_SHORT 4   /* the frame before had less packets than slots and is dropped, a new one opened */
#define NIRANBOK_JUMP 5    /* the counter did not step by 1: the frame before is dropped, a new one opened */
#define NIRANBOK_LONG 6    /* a packet more than slots, the 53rd or in a short run the 41st: the open frame is dropped */
#define NIRANBOK_BROKEN 7  /* a broken packet, a header that is refused among them: the open frame is dropped */

/* The CRC register of H.222.0 that the bytes leave, 0 behind a header's own CRC (bytes 4 to 187). */
uint32_t niranbok_crc(const uint8_t *bytes, size_t length);

/* Whether a number is a header PID. */
bool niranbok_pid_allowed(uint16_t pid);

/* Whether a number is a slot's, 1 to 52: 0, or 17. It is not told the kind; a short frame's slots are 1 to 40. */
uint8_t niranbok_slot(uint8_t n);

/* Whether a number is a stream's, 1 to 15: 0, or 17. It is not told the kind; a short frame's streams are 1 to
 * 7. */
uint8_t niranbok_relative_number(uint8_t n);

/* Whether a number is a frame's position in its super frame, 1 to 4: 0, or 17. */
uint8_t niranbok_frame_position(uint8_t n);

/* Whether stream r is available by an availability, as a setting of any kind has it; of any other r than 1 to
 * 15, false. */
bool niranbok_is_available(uint8_t r, uint16_t availability);

/* How many of the fifteen streams are available by an availability. */
uint32_t niranbok_count_available(uint16_t availability);

/* Writes a setting of zeros into the lent 298 bytes. Refuses 1. */
uint8_t niranbok_setting_blank(uint8_t *setting, size_t setting_length);

/* Whether every field of a setting fits its bits, as a header of this kind has them. A field that the kind
 * does not have fits with 0 alone. Writes nothing. The number of carriers and of frames, the carrier's
 * sequence and the frame's position of an extended setting are not asked here but by the rules, with 11.
 * Refuses 1, 17. */
uint8_t niranbok_setting_widths(const uint8_t *setting, size_t setting_length, uint8_t kind);

/* Whether a setting obeys the rules of a header of this kind. Writes nothing. All 52 slots and fifteen streams
 * are looked at, whatever the kind: what a short frame does not have is asked by niranbok_setting_widths.
 * Refuses 1, 17 (the kind), 8, 9, 10, 11. */
uint8_t niranbok_setting_rules(const uint8_t *setting, size_t setting_length, uint8_t kind);

/* Writes the setting's header into the lent 188 bytes. Refuses 1, 2, 17, 8, 9, 10, 11. */
uint8_t niranbok_header_write(uint8_t *packet, size_t packet_length, uint16_t pid, uint8_t kind,
                              const uint8_t *setting, size_t setting_length);

/* Reads the packet as a header and writes what it says into the lent 298 bytes, and the remainder. Refuses 1,
 * 2, 17 (the kind), 3, 4, 5, 6, 7, 20, 8, 9, 10, 11. */
uint8_t niranbok_header_read(const uint8_t *packet, size_t packet_length, uint16_t pid, uint8_t kind,
                             uint8_t *setting, size_t setting_length, uint32_t *remainder);

/* Whether a packet may stand in a slot: 0; 1 if it is not 188 bytes long; 12 if it lacks 0x47 or bears the
 * header PID. Writes nothing. */
uint8_t niranbok_place_refusal(const uint8_t *packet, size_t packet_length, uint16_t pid);

/* Starts a run: writes its state into the lent 436 bytes. PID and kind stay for the run. Refuses 1, 2,
 * 17 (the kind). */
uint8_t niranbok_composer_start(uint8_t *state, size_t state_length, uint16_t pid, uint8_t kind);

/* Opens a frame with a setting and its plan: null packets in all slots of the lent frame, which has the
 * length of the run's kind, 9,964 bytes or 7,708, and the new state. A frame still open is abandoned. Refuses
 * 1, 2, 17, 8, 9, 10, 11. */
uint8_t niranbok_composer_begin(uint8_t *state, size_t state_length, uint8_t *frame,
                                size_t frame_length, const uint8_t *setting,
                                size_t setting_length);

/* Fills the empty slots planned for stream r (1 to 15, in a short run 1 to 7), in rising order, from the
 * front of the stream, until slots or packets run out: writes these slots, the new state, and how many
 * packets were placed. The frame is the one that begin was lent. Refuses 1, 2, 17, 16, 8, 9, 10, 11, 13,
 * 12. */
uint8_t niranbok_composer_put(uint8_t *state, size_t state_length, uint8_t *frame,
                              size_t frame_length, const uint8_t *stream, size_t stream_length,
                              uint8_t r, size_t *placed);

/* How many bytes of a stream are left behind so many placed packets: its last ones. The rest begins at
 * stream + stream_length - rest, and goes to the stream's end. With 0 packets placed, as after a refusal, it
 * is the whole stream; with all of them placed, or more than the stream has, it is 0 bytes. */
size_t niranbok_composer_rest(const uint8_t *stream, size_t stream_length, size_t placed);

/* Closes the open frame: writes its header into slot 0, and the new state. The frame is the one that begin
 * was lent. Refuses 1, 2, 17, 16, 8, 9, 10, 11. */
uint8_t niranbok_composer_close(uint8_t *state, size_t state_length, uint8_t *frame,
                                size_t frame_length);

/* Starts a receiver: writes its state into the lent 58 bytes. Refuses 1, 2, 17 (the kind). */
uint8_t niranbok_receiver_start(uint8_t *state, size_t state_length, uint16_t pid, uint8_t kind);

/* Takes one packet: writes the new state, what the packet did, the remainder, and, where it was stored, its
 * slot of the store. The store has the length of the receiver's kind, 9,776 bytes or 7,520. Refuses 1, 2, 17.
 *
 * A whole frame, as gathering needs it, is built by the caller: the store has the 52 slots and not the
 * header. Keep a copy of the packet that opened the frame (the event is NIRANBOK_OPENED, NIRANBOK_READY,
 * NIRANBOK_SHORT or NIRANBOK_JUMP). When a later packet makes the frame ready (NIRANBOK_READY), the kept
 * packet and behind it the store's 9,776 bytes are the frame's 9,964. Copy them before the next packet is
 * received, and then keep the packet that made it ready: it opened the next frame. */
uint8_t niranbok_receiver_receive(uint8_t *state, size_t state_length, const uint8_t *packet,
                                  size_t packet_length, uint8_t *store, size_t store_length,
                                  uint8_t *event, uint32_t *remainder);

/* Copies the ready frame's packets with number r (1 to 15, in a short run 1 to 7), in slot order, to the
 * front of `out`, and writes how many. The store is the one that receive was lent. The frame is ready until
 * the next packet is received. Refuses 1, 2, 17, 16, 15. */
uint8_t niranbok_receiver_hand_out(const uint8_t *state, size_t state_length, const uint8_t *store,
                                   size_t store_length, uint8_t *out, size_t out_length, uint8_t r,
                                   size_t *packets);

/* Reads the headers of a group, the super frames of carriers 1 to `carriers` one behind another, each of 3
 * or 4 frames with extended headers (examples/bonding.c makes one, and one again from receivers): writes
 * whether one of them carries the stream as available (1, or 0), how many bonded slots it has, which is
 * how many packets spread takes and gather gives, and the remainder: beside 7 that of the header which is
 * refused, the first that is. Refuses 1, 2, 17, 3 to 7, 20, 8 to 11, 14. */
uint8_t niranbok_read_headers(const uint8_t *group, size_t group_length, uint8_t carriers,
                              uint16_t pid, uint16_t ts_id, uint16_t original_network_id,
                              uint8_t *is_carried, size_t *packets, uint32_t *remainder);

/* Writes a stream's packets into the bonded slots of a group, in order, how many there were, and the
 * remainder, as niranbok_read_headers does. Refuses 1, 2, 17, 3 to 7, 20, 8 to 11, 14, 13, 15, 12. */
uint8_t niranbok_spread(uint8_t *group, size_t group_length, const uint8_t *stream,
                        size_t stream_length, uint8_t carriers, uint16_t pid, uint16_t ts_id,
                        uint16_t original_network_id, size_t *packets, uint32_t *remainder);

/* Copies the bonded slots of a group, in order, to the front of `out`, and writes how many packets, and the
 * remainder, as niranbok_read_headers does. Refuses 1, 2, 17, 3 to 7, 20, 8 to 11, 14, 13, 15. */
uint8_t niranbok_gather(const uint8_t *group, size_t group_length, uint8_t *out, size_t out_length,
                        uint8_t carriers, uint16_t pid, uint16_t ts_id,
                        uint16_t original_network_id, size_t *packets, uint32_t *remainder);

#ifdef __cplusplus
}
#endif

#endif
