/* How much stack the operations take. Each is called on a stack of its own that was painted before; the deepest octet that it changed tells. */
#define _XOPEN_SOURCE 700
#include <stdint.h>
#include <stdio.h>
#include <string.h>
#include <ucontext.h>

#include "exchange.h"

enum { PAINT = 0xa5 };

static uint8_t painted[64 * 1024];
static ucontext_t caller, callee;
static unsigned (*operation)(void);
static unsigned told;
static const volatile uint8_t *top;

/* what the operations are called with, away from the painted stack */
static galebeacon_state state;
static galebeacon_call call;
static galebeacon_record shown;
static uint8_t reply[GALEBEACON_SMALLEST_REPLY], copy[sizeof third_frame];

static void on_painted(void) {
    volatile uint8_t here = 0;
    top = &here;
    told = operation();
}

/* octets from the caller's frame down to the deepest changed one: what is pushed for the call, and all that lies below */
static size_t depth_of(unsigned (*measured)(void)) {
    size_t deepest = 0;
    operation = measured;
    memset(painted, PAINT, sizeof painted);
    getcontext(&callee);
    callee.uc_stack.ss_sp = painted;
    callee.uc_stack.ss_size = sizeof painted;
    callee.uc_link = &caller;
    makecontext(&callee, on_painted, 0);
    swapcontext(&caller, &callee);
    while (painted[deepest] == PAINT) deepest++;
    return (size_t)(top - (painted + deepest));
}

static unsigned empty(void) {
    galebeacon_empty(&state);
    return 0;
}

static unsigned receive(const uint8_t *body, size_t body_length) {
    return galebeacon_receive(&state, call, cache, sizeof cache, own_key, sizeof own_key, third_mic, sizeof third_mic, body, body_length, reply, sizeof reply).answer;
}

static unsigned receive_first(void) { return receive(first_frame, sizeof first_frame); }

static unsigned receive_cut(void) { return receive(first_frame, sizeof first_frame - 1); }

static unsigned receive_third(void) { return receive(third_frame, sizeof third_frame); }

static unsigned look_up(void) { return galebeacon_look_up(&state, station, call.reading_tu, &shown); }

static unsigned remove_station(void) { return galebeacon_remove(&state, station, call.reading_tu); }

static unsigned show_key(void) { return galebeacon_show_key(first_frame, sizeof first_frame).length != 0; }

static unsigned zero_mic(void) { return galebeacon_zero_mic(third_frame, sizeof third_frame, copy, sizeof copy); }

static unsigned set_mic(void) { return galebeacon_set_mic(copy, sizeof copy, third_mic, sizeof third_mic); }

/* in this order one exchange, refused after its first frame and taken up again */
static const struct {
    const char *name;
    unsigned (*run)(void);
    unsigned wanted;
} operations[] = {
    {"empty", empty, 0},
    {"receive a first frame", receive_first, GALEBEACON_ACCEPTED},
    {"receive a cut first frame", receive_cut, GALEBEACON_REFUSED},
    {"receive a first frame", receive_first, GALEBEACON_ACCEPTED},
    {"receive a third frame", receive_third, GALEBEACON_INSTALLED},
    {"look up", look_up, GALEBEACON_SHOWN},
    {"remove", remove_station, GALEBEACON_REMOVED},
    {"show the key", show_key, 1},
    {"zero the MIC", zero_mic, GALEBEACON_MIC_DONE},
    {"set the MIC", set_mic, GALEBEACON_MIC_DONE}
};

int main(void) {
    size_t i, most = 0;
    call = call_at(5000, 1);
    for (i = 0; i < sizeof operations / sizeof operations[0]; i++) {
        size_t depth = depth_of(operations[i].run);
        printf("%-26s %5lu octets\n", operations[i].name, (unsigned long)depth);
        if (told != operations[i].wanted) {
            fprintf(stderr, "stack: %s tells %u, and %u was expected\n", operations[i].name, told, operations[i].wanted);
            return 1;
        }
        if (depth > most) most = depth;
    }
    printf("at most %lu octets, and GALEBEACON_STACK is %d\n", (unsigned long)most, GALEBEACON_STACK);
    return most > GALEBEACON_STACK;
}
