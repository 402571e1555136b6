/* What the examples share: frames of one exchange, the unit's PMKs and settings. All of it is made up. */
#ifndef EXCHANGE_H
#define EXCHANGE_H

#include <string.h>

#include "galebeacon.h"

/* a station's first frame: SAE with a PMK that the unit has, CCMP-128, a key lifetime of 3,600 seconds, and a public key of 33 octets */
static const uint8_t first_frame[] = {
    7, 0, 1, 0, 0, 0,                     /* algorithm PASN, transaction 1, status 0 */
    48, 42, 1, 0, 0x00, 0x0f, 0xac, 7,    /* RSNE: version 1, group cipher 7 */
    1, 0, 0x00, 0x0f, 0xac, 4,            /* one pairwise cipher */
    1, 0, 0x00, 0x0f, 0xac, 8,            /* one AKM */
    0xc0, 0, 1, 0,                        /* capabilities: protected management frames; one PMKID */
    1, 2, 3, 4, 5, 6, 7, 8, 9, 10, 11, 12, 13, 14, 15, 16,
    0x00, 0x0f, 0xac, 7,                  /* group management cipher 7 */
    56, 5, 2, 0x10, 0x0e, 0, 0,           /* Timeout Interval: key lifetime, 3,600 seconds */
    255, 39, 100, 2, 0, 19, 0, 33,        /* PASN Parameters: group 19 and a key of 33 octets */
    2, 0x5a, 0x5a, 0x5a, 0x5a, 0x5a, 0x5a, 0x5a, 0x5a, 0x5a, 0x5a, 0x5a, 0x5a, 0x5a, 0x5a, 0x5a, 0x5a,
    0x5a, 0x5a, 0x5a, 0x5a, 0x5a, 0x5a, 0x5a, 0x5a, 0x5a, 0x5a, 0x5a, 0x5a, 0x5a, 0x5a, 0x5a, 0x5a
};

/* its third frame, with a MIC of 16 times AA */
static const uint8_t third_frame[] = {
    7, 0, 3, 0, 0, 0,
    255, 3, 100, 0, 0,
    140, 16, 0xaa, 0xaa, 0xaa, 0xaa, 0xaa, 0xaa, 0xaa, 0xaa, 0xaa, 0xaa, 0xaa, 0xaa, 0xaa, 0xaa, 0xaa, 0xaa
};

/* the unit's PMKs: one record, for SAE, good until 2^40 TU */
static const uint8_t cache[] = {
    0x31, 25, 0,
    1, 2, 3, 4, 5, 6, 7, 8, 9, 10, 11, 12, 13, 14, 15, 16,
    8, 0, 0, 0, 0, 0, 1, 0, 0
};

/* lent: the unit's own public key, and the MIC that the third frame must carry */
static const uint8_t own_key[33] = {
    3, 0x77, 0x77, 0x77, 0x77, 0x77, 0x77, 0x77, 0x77, 0x77, 0x77, 0x77, 0x77, 0x77, 0x77, 0x77, 0x77,
    0x77, 0x77, 0x77, 0x77, 0x77, 0x77, 0x77, 0x77, 0x77, 0x77, 0x77, 0x77, 0x77, 0x77, 0x77, 0x77
};

static const uint8_t third_mic[GALEBEACON_MIC] = {
    0xaa, 0xaa, 0xaa, 0xaa, 0xaa, 0xaa, 0xaa, 0xaa, 0xaa, 0xaa, 0xaa, 0xaa, 0xaa, 0xaa, 0xaa, 0xaa
};

static const uint8_t station[6] = {0x02, 0x00, 0x00, 0x00, 0x00, 0x07};

static galebeacon_call call_at(uint64_t reading_tu, int point_valid) {
    galebeacon_call call;
    memset(&call, 0, sizeof call);
    call.settings.allow_ciphers = GALEBEACON_ALLOW_CCMP_128 | GALEBEACON_ALLOW_GCMP_256;
    call.settings.lifetime_seconds = 86400;
    call.settings.deadline_tu = 1000;
    call.reading_tu = reading_tu;
    memcpy(call.address, station, sizeof station);
    call.point_valid = (uint8_t)point_valid;
    return call;
}

#endif
