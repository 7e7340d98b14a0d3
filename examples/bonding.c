/* One stream over two bonded carriers: carrier 1 with 3 frames in a super frame (64 QAM), carrier 2 with
 * 4 (256 QAM). Composes a super frame of each, spreads the stream over both, sends each carrier on its
 * own way to a receiver of its own, builds the frames again there and gathers. Exits with 0 if the
 * stream came back packet for packet.
 *
 *     cc -Iinclude examples/bonding.c libniranbok.a -o bonding && ./bonding
 */
#include "niranbok.h"

#include <stdio.h>
#include <string.h>

enum { PID = 0x1FF0, TS_ID = 0x0401, NETWORK_ID = 0x0004, CARRIERS = 2, GROUP_FRAMES = 3 + 4 };

/* What each carrier has: frames in a super frame, slots of each for the stream, its number there. */
static const struct { uint8_t frames, slots, number; } carriers[CARRIERS] = {{3, 20, 1}, {4, 30, 7}};

/* 20 slots in 3 frames and 30 in 4. */
enum { STREAM_PACKETS = 3 * 20 + 4 * 30, STREAM_BYTES = STREAM_PACKETS * NIRANBOK_PACKET_BYTES };

static uint8_t stream[STREAM_BYTES], out[STREAM_BYTES];

/* The super frames one behind another, as they are sent and as they are received; and behind each carrier's
 * last frame its run's next header, which vouches for that frame. */
static uint8_t sent[GROUP_FRAMES * NIRANBOK_FRAME_BYTES], received[GROUP_FRAMES * NIRANBOK_FRAME_BYTES];
static uint8_t next_frame[CARRIERS][NIRANBOK_FRAME_BYTES];

/* Packets that can be told apart. */
static void make_stream(void)
{
    for (int k = 0; k < STREAM_PACKETS; k++) {
        uint8_t *packet = stream + NIRANBOK_PACKET_BYTES * k;
        memset(packet, 0xFF, NIRANBOK_PACKET_BYTES);
        const uint8_t start[6] = {0x47, 0x01, 0x00, 0x10, (uint8_t)(k >> 8), (uint8_t)k};
        memcpy(packet, start, sizeof start);
    }
}

static void set_word(uint8_t *at, unsigned n)
{
    at[0] = (uint8_t)(n >> 8);
    at[1] = (uint8_t)n;
}

/* The extended header of a carrier's frame: its first slots are planned for the stream. */
static void make_setting(uint8_t setting[NIRANBOK_SETTING_BYTES], int c, int position)
{
    unsigned stream_number = carriers[c].number;
    memset(setting, 0, NIRANBOK_SETTING_BYTES);
    setting[NIRANBOK_FRAME_TYPE] = 2; /* for bonding alone */
    set_word(setting + NIRANBOK_AVAILABILITY, 1u << (15 - stream_number));
    set_word(setting + NIRANBOK_TS_ID + 2 * (stream_number - 1), TS_ID);
    set_word(setting + NIRANBOK_ORIGINAL_NETWORK_ID + 2 * (stream_number - 1), NETWORK_ID);
    memset(setting + NIRANBOK_RELATIVE_TS_NUMBER, (int)stream_number, carriers[c].slots);
    setting[NIRANBOK_GROUP_ID] = 9;
    setting[NIRANBOK_NUMBER_OF_CARRIERS] = CARRIERS;
    setting[NIRANBOK_CARRIER_SEQUENCE] = (uint8_t)(c + 1);
    setting[NIRANBOK_NUMBER_OF_FRAMES] = carriers[c].frames;
    setting[NIRANBOK_FRAME_POSITION] = (uint8_t)position;
}

/* Composes one frame of a carrier's run. A header gives a slot its number only if the slot was filled, so the
 * stream's own first packets hold its slots until the spread. Answers 0, or the refusal. */
static uint8_t compose_frame(uint8_t *state, uint8_t *frame, int c, int position)
{
    uint8_t setting[NIRANBOK_SETTING_BYTES];
    size_t placed;
    make_setting(setting, c, position);
    uint8_t refusal = niranbok_composer_begin(state, NIRANBOK_COMPOSER_BYTES, frame, NIRANBOK_FRAME_BYTES,
                                              setting, sizeof setting);
    if (refusal == 0)
        refusal = niranbok_composer_put(state, NIRANBOK_COMPOSER_BYTES, frame, NIRANBOK_FRAME_BYTES, stream,
                                        (size_t)carriers[c].slots * NIRANBOK_PACKET_BYTES,
                                        carriers[c].number, &placed);
    if (refusal == 0)
        refusal = niranbok_composer_close(state, NIRANBOK_COMPOSER_BYTES, frame, NIRANBOK_FRAME_BYTES);
    return refusal;
}

/* A super frame of each carrier into `sent`, and the frame behind it. Answers 0, or the refusal. */
static uint8_t compose(void)
{
    uint8_t *frame = sent, refusal = 0;
    for (int c = 0; c < CARRIERS && refusal == 0; c++) {
        uint8_t state[NIRANBOK_COMPOSER_BYTES];
        refusal = niranbok_composer_start(state, sizeof state, PID, NIRANBOK_EXTENDED);
        for (int f = 1; f <= carriers[c].frames && refusal == 0; f++) {
            refusal = compose_frame(state, frame, c, f);
            frame += NIRANBOK_FRAME_BYTES;
        }
        if (refusal == 0)
            refusal = compose_frame(state, next_frame[c], c, 1);
    }
    return refusal;
}

/* Takes one packet of a carrier's line. A receiver's store has the 52 slots and not the header, so the packet
 * that opened the frame is held here: when the frame is ready, that packet and the store behind it are the
 * frame again. Answers how many frames were ready, 1 or 0, or -1 for a fault. */
static int receive_packet(uint8_t *state, uint8_t *store, uint8_t *opened, const uint8_t *packet, uint8_t *frame)
{
    uint8_t event;
    uint32_t remainder;
    if (niranbok_receiver_receive(state, NIRANBOK_RECEIVER_BYTES, packet, NIRANBOK_PACKET_BYTES, store,
                                  NIRANBOK_STORE_BYTES, &event, &remainder) != 0)
        return -1;
    if (event == NIRANBOK_READY) {
        memcpy(frame, opened, NIRANBOK_PACKET_BYTES);
        memcpy(frame + NIRANBOK_PACKET_BYTES, store, NIRANBOK_STORE_BYTES);
    }
    if (event == NIRANBOK_OPENED || event == NIRANBOK_READY || event == NIRANBOK_SHORT || event == NIRANBOK_JUMP)
        memcpy(opened, packet, NIRANBOK_PACKET_BYTES);
    return event == NIRANBOK_READY;
}

/* Receives a carrier's frames from its line and builds them again. Answers whether all of them came. */
static int receive(int c, const uint8_t *line, uint8_t *frames)
{
    uint8_t state[NIRANBOK_RECEIVER_BYTES], opened[NIRANBOK_PACKET_BYTES];
    static uint8_t store[NIRANBOK_STORE_BYTES];
    int ready = 0;
    if (niranbok_receiver_start(state, sizeof state, PID, NIRANBOK_EXTENDED) != 0)
        return 0;
    for (int k = 0; k <= 53 * carriers[c].frames; k++) {
        const uint8_t *packet = k < 53 * carriers[c].frames ? line + NIRANBOK_PACKET_BYTES * k : next_frame[c];
        /* Behind the last frame nothing is ready any more, so nothing is written past it. */
        int more = receive_packet(state, store, opened, packet, frames + NIRANBOK_FRAME_BYTES * ready);
        if (more < 0)
            return 0;
        ready += more;
    }
    return ready == carriers[c].frames;
}

/* Both carriers, each on its own, into `received`. */
static int receive_all(void)
{
    size_t at = 0;
    for (int c = 0; c < CARRIERS; c++) {
        if (!receive(c, sent + at, received + at))
            return 0;
        at += (size_t)carriers[c].frames * NIRANBOK_FRAME_BYTES;
    }
    return 1;
}

int main(void)
{
    uint8_t is_carried;
    size_t slots, spread, gathered;
    uint32_t remainder = 0;
    make_stream();
    uint8_t refusal = compose();
    if (refusal == 0)
        refusal = niranbok_read_headers(sent, sizeof sent, CARRIERS, PID, TS_ID, NETWORK_ID, &is_carried, &slots,
                                        &remainder);
    if (refusal == 0)
        refusal = niranbok_spread(sent, sizeof sent, stream, sizeof stream, CARRIERS, PID, TS_ID, NETWORK_ID,
                                  &spread, &remainder);
    if (refusal != 0) {
        printf("refused: %u, remainder %08lx\n", refusal, (unsigned long)remainder);
        return 1;
    }
    printf("%zu slots on %d carriers, %zu packets spread\n", slots, CARRIERS, spread);
    if (!receive_all()) {
        printf("a frame did not arrive\n");
        return 1;
    }
    refusal = niranbok_gather(received, sizeof received, out, sizeof out, CARRIERS, PID, TS_ID, NETWORK_ID,
                              &gathered, &remainder);
    int same = refusal == 0 && gathered == STREAM_PACKETS && memcmp(out, stream, sizeof stream) == 0;
    printf("%zu packets gathered, the stream is %s\n", gathered, same ? "as it was" : "another one");
    return same && is_carried == 1 && slots == STREAM_PACKETS && spread == STREAM_PACKETS ? 0 : 1;
}
