/* One exchange with a station, from its first frame to its removal. What the radio chip would lend is made up. */
#include <stdio.h>
#include <stdlib.h>
#include <string.h>

#include "exchange.h"

static void expect(const char *call, unsigned answer, unsigned wanted) {
    printf("%-26s %u\n", call, answer);
    if (answer != wanted) {
        fprintf(stderr, "exchange: %s answers %u, and %u was expected\n", call, answer, wanted);
        exit(1);
    }
}

static void print_octets(const char *name, const uint8_t *octets, size_t length) {
    size_t i;
    printf("%s", name);
    for (i = 0; i < length; i++) printf("%s%02x", i % 32 == 0 ? "\n    " : "", octets[i]);
    printf("\n");
}

static void look_up(const galebeacon_state *state, uint64_t reading_tu, unsigned wanted) {
    galebeacon_record shown;
    unsigned answer = galebeacon_look_up(state, station, reading_tu, &shown);
    expect("look up", answer, wanted);
    if (answer == GALEBEACON_SHOWN)
        printf("    %s, cipher %u, AKM %u, %s, %lu seconds, until %llu TU\n",
               shown.phase == GALEBEACON_WAITING ? "waiting" : "installed", shown.cipher, shown.akm,
               shown.has_pmkid ? "with a PMKID" : "no PMKID", (unsigned long)shown.lifetime_seconds, (unsigned long long)shown.until_tu);
}

/* The first frame is answered by the second. No MIC is lent with it: a slice of no octets still has a pointer. */
static void first(galebeacon_state *state, uint8_t *reply, size_t reply_length) {
    uint8_t mic[GALEBEACON_MIC];
    galebeacon_receive_result r;
    galebeacon_key_place key = galebeacon_show_key(first_frame, sizeof first_frame);
    printf("the key begins at %lu and has %lu octets\n", (unsigned long)key.start, (unsigned long)key.length);
    memset(mic, 0xbb, sizeof mic);
    r = galebeacon_receive(state, call_at(5000, 1), cache, sizeof cache, own_key, sizeof own_key, mic, 0,
                           first_frame, sizeof first_frame, reply, reply_length);
    expect("receive the first frame", r.answer, GALEBEACON_ACCEPTED);
    expect("set the second frame's MIC", galebeacon_set_mic(reply, r.length, mic, sizeof mic), GALEBEACON_MIC_DONE);
    print_octets("the second frame", reply, r.length);
}

static void third(galebeacon_state *state, uint64_t reading_tu, uint8_t *reply, size_t reply_length, unsigned wanted) {
    uint8_t input[sizeof third_frame]; /* what the chip would make third_mic of */
    galebeacon_receive_result r;
    expect("zero the third frame's MIC", galebeacon_zero_mic(third_frame, sizeof third_frame, input, sizeof input), GALEBEACON_MIC_DONE);
    r = galebeacon_receive(state, call_at(reading_tu, 0), cache, sizeof cache, own_key, 0, third_mic, sizeof third_mic,
                           third_frame, sizeof third_frame, reply, reply_length);
    expect("receive the third frame", r.answer, wanted);
}

/* A first frame that is cut short is refused, with a status and a reply of 6 octets. */
static void refused(galebeacon_state *state, uint64_t reading_tu, uint8_t *reply, size_t reply_length) {
    galebeacon_receive_result r = galebeacon_receive(state, call_at(reading_tu, 1), cache, sizeof cache, cache, 0, cache, 0,
                                                     first_frame, sizeof first_frame - 1, reply, reply_length);
    expect("receive a cut first frame", r.answer, GALEBEACON_REFUSED);
    expect("    with the status", r.status, 40);
    print_octets("the refusal", reply, r.length);
}

/* A unit that starts again: the octets of its state were kept in flash, and are read back. */
static void restart(galebeacon_state *state) {
    static uint8_t flash[sizeof *state];
    memcpy(flash, state, sizeof flash);
    memset(state, 0xff, sizeof *state);
    memcpy(state, flash, sizeof flash);
    printf("start again with the state kept\n");
}

int main(void) {
    static uint8_t reply[GALEBEACON_SMALLEST_REPLY];
    galebeacon_state state;
    galebeacon_empty(&state);
    look_up(&state, 4000, GALEBEACON_NO_RECORD);
    refused(&state, 4500, reply, sizeof reply);
    first(&state, reply, sizeof reply);
    look_up(&state, 5000, GALEBEACON_SHOWN);
    restart(&state);
    third(&state, 5003, reply, sizeof reply, GALEBEACON_INSTALLED);
    look_up(&state, 5003, GALEBEACON_SHOWN);
    third(&state, 5004, reply, sizeof reply, GALEBEACON_NO_EXCHANGE);
    look_up(&state, 5003, GALEBEACON_CLOCK);
    expect("remove", galebeacon_remove(&state, station, 6000), GALEBEACON_REMOVED);
    look_up(&state, 6000, GALEBEACON_NO_RECORD);
    return 0;
}
