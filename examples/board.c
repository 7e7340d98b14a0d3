/* A headend in small: composes four frames of two streams, loses a packet of the second frame on the
 * way, receives the rest and hands out each frame that arrived whole. Then the last header comes with a
 * wrong CRC, and its remainder is shown. Exits with 0 if what came out is what was put in, frame 2 missing.
 *
 *     cc -Iinclude examples/board.c libniranbok.a -o board && ./board
 */
#include "niranbok.h"

#include <stdio.h>
#include <string.h>

enum { PID = 0x1FF0, FRAMES = 4, STREAMS = 2, SLOTS = 26, STREAM_BYTES = SLOTS * NIRANBOK_PACKET_BYTES };

/* What is sent: for each frame and stream its 26 packets. */
static uint8_t sent[FRAMES][STREAMS][STREAM_BYTES];

/* The line between composer and receiver. */
static uint8_t line[FRAMES * NIRANBOK_FRAME_BYTES];

/* Packets that can be told apart: 0x47, a PID of the stream's own, and where the packet belongs. */
static void make_packets(void)
{
    for (int f = 0; f < FRAMES; f++)
        for (int s = 0; s < STREAMS; s++)
            for (int k = 0; k < SLOTS; k++) {
                uint8_t *packet = sent[f][s] + NIRANBOK_PACKET_BYTES * k;
                memset(packet, 0xFF, NIRANBOK_PACKET_BYTES);
                const uint8_t start[7] = {0x47, 0x01, (uint8_t)s, 0x10, (uint8_t)f, (uint8_t)s, (uint8_t)k};
                memcpy(packet, start, sizeof start);
            }
}

static void set_word(uint8_t *at, unsigned n)
{
    at[0] = (uint8_t)(n >> 8);
    at[1] = (uint8_t)n;
}

/* A plain header: streams 1 and 2 are available and take the slots in turn. */
static void make_setting(uint8_t setting[NIRANBOK_SETTING_BYTES])
{
    memset(setting, 0, NIRANBOK_SETTING_BYTES);
    setting[NIRANBOK_FRAME_TYPE] = 1;
    set_word(setting + NIRANBOK_AVAILABILITY, 0x6000);
    for (unsigned s = 0; s < STREAMS; s++) {
        set_word(setting + NIRANBOK_TS_ID + 2 * s, 0x0400 + s);
        set_word(setting + NIRANBOK_ORIGINAL_NETWORK_ID + 2 * s, 0x0004);
    }
    for (int slot = 0; slot < 52; slot++)
        setting[NIRANBOK_RELATIVE_TS_NUMBER + slot] = (uint8_t)(1 + slot % STREAMS);
}

/* Composes the frames, one behind another on the line. Answers 0, or the refusal of the call that refused. */
static uint8_t compose(void)
{
    uint8_t state[NIRANBOK_COMPOSER_BYTES], setting[NIRANBOK_SETTING_BYTES];
    make_setting(setting);
    uint8_t refusal = niranbok_composer_start(state, sizeof state, PID, NIRANBOK_PLAIN);
    for (int f = 0; f < FRAMES && refusal == 0; f++) {
        uint8_t *frame = line + NIRANBOK_FRAME_BYTES * f;
        refusal = niranbok_composer_begin(state, sizeof state, frame, NIRANBOK_FRAME_BYTES, setting,
                                          sizeof setting);
        for (uint8_t s = 0; s < STREAMS && refusal == 0; s++) {
            size_t placed;
            refusal = niranbok_composer_put(state, sizeof state, frame, NIRANBOK_FRAME_BYTES, sent[f][s],
                                            STREAM_BYTES, (uint8_t)(s + 1), &placed);
        }
        if (refusal == 0)
            refusal = niranbok_composer_close(state, sizeof state, frame, NIRANBOK_FRAME_BYTES);
    }
    return refusal;
}

/* Hands out the ready frame's streams and compares them with what frame f was given. */
static int came_out_whole(const uint8_t *state, const uint8_t *store, int f)
{
    for (uint8_t s = 0; s < STREAMS; s++) {
        uint8_t out[STREAM_BYTES];
        size_t packets;
        uint8_t refusal = niranbok_receiver_hand_out(state, NIRANBOK_RECEIVER_BYTES, store,
                                                     NIRANBOK_STORE_BYTES, out, sizeof out,
                                                     (uint8_t)(s + 1), &packets);
        if (refusal != 0 || packets != SLOTS || memcmp(out, sent[f][s], sizeof out) != 0)
            return 0;
    }
    return 1;
}

/* Receives the line without one packet. Answers how many frames were ready and right, -1 for a fault. */
static int receive(size_t lost)
{
    uint8_t state[NIRANBOK_RECEIVER_BYTES], event;
    uint32_t remainder;
    static uint8_t store[NIRANBOK_STORE_BYTES];
    int whole = 0, frame = -1;
    if (niranbok_receiver_start(state, sizeof state, PID, NIRANBOK_PLAIN) != 0)
        return -1;
    for (size_t k = 0; k < sizeof line / NIRANBOK_PACKET_BYTES; k++) {
        if (k == lost)
            continue;
        if (niranbok_receiver_receive(state, sizeof state, line + NIRANBOK_PACKET_BYTES * k,
                                      NIRANBOK_PACKET_BYTES, store, sizeof store, &event, &remainder) != 0)
            return -1;
        if (event == NIRANBOK_SHORT)
            printf("frame %d is dropped: it is short\n", frame + 1);
        if (event == NIRANBOK_BROKEN)
            printf("frame %d is dropped: the header behind it is broken, remainder %08lx\n", frame + 1,
                   (unsigned long)remainder);
        if (event == NIRANBOK_READY) {
            if (!came_out_whole(state, store, frame))
                return -1;
            printf("frame %d is ready, and both streams are as they were put in\n", frame + 1);
            whole++;
        }
        if (event != NIRANBOK_STORED)
            frame++;
    }
    return whole;
}

int main(void)
{
    make_packets();
    uint8_t refusal = compose();
    if (refusal != 0) {
        printf("the composer refused: %u\n", refusal);
        return 1;
    }
    /* Frame 4 has no header behind it that vouches for it; of the other three, frame 2 lost a packet. */
    int whole = receive(53 + 17);
    printf("%d frames whole\n", whole);
    /* The last bit of the fourth header is turned, and so of its CRC: frame 3 has no good header behind it. */
    line[3 * NIRANBOK_FRAME_BYTES + NIRANBOK_PACKET_BYTES - 1] ^= 1;
    int left = receive(53 + 17);
    printf("%d frame whole\n", left);
    return whole == 2 && left == 1 ? 0 : 1;
}
