/*
 * Galebeacon: the access point side of PASN, for a unit's firmware on x86-64. Link with libunit.a.
 *
 * A station and the unit exchange three Authentication frames. The first is the station's, the second the unit's, the third the station's; with the
 * third a key is installed. The firmware hands over the body of each Authentication frame (what comes after the radio header) and sends the reply.
 * Curve and hash arithmetic stay with the radio chip, which lends its results: whether a public key is a valid point, the unit's own public key, and
 * the MIC that a third frame must carry.
 *
 *   galebeacon_empty      the state of a unit that starts
 *   galebeacon_receive    a frame came in
 *   galebeacon_look_up    what is known of a station
 *   galebeacon_remove     a station is gone (deauthentication)
 *   galebeacon_show_key   where a first frame has the station's public key, for the chip's point check
 *   galebeacon_zero_mic   a frame with its MIC zeroed, as the chip computes MICs over it
 *   galebeacon_set_mic    puts the MIC that the chip computed into a frame
 *
 * Every call with memory as below is allowed: wrong input gets an answer, and each operation returns. What the answers mean is proved.
 *
 * Memory. No operation allocates, waits, or keeps anything between calls, its pointers included: the state is a string of octets that the caller keeps, may copy,
 * and lends, and that is read and changed where it stands. Two threads may be in an operation at once if neither writes what the other was lent. The archive
 * calls no function but memcpy and memset. Where it was measured (examples/run stack) the deepest call took 1,279 octets of stack: allow GALEBEACON_STACK.
 *
 * Slices. A buffer crosses as two arguments: a pointer to its first octet, then its length in octets. The pointer is never null, also where the length is 0.
 * The pointer to an address leads to 6 octets, the one to a state to a galebeacon_state, the one to a record to a galebeacon_record; none is null. What an
 * operation writes to (its pointer is not const) must not overlap anything else that is lent to that call. What is only read may overlap.
 *
 * Units. A name ends in _seconds or in _tu. A TU is 1,024 microseconds. The clock counts TU, may stand still between calls, and never goes back.
 */
#ifndef GALEBEACON_H
#define GALEBEACON_H

#include <stddef.h>
#include <stdint.h>

#ifdef __cplusplus
extern "C" {
#endif

/* ---- Sizes ------------------------------------------------------------------------------------------------------------------------------ */

enum {
    GALEBEACON_RECORDS = 16,         /* stations at a time */
    GALEBEACON_SHORTEST_BODY = 6,
    GALEBEACON_LONGEST_BODY = 1024,
    GALEBEACON_SMALLEST_REPLY = 148, /* what a reply buffer needs at least; no reply is longer */
    GALEBEACON_MIC = 16,
    GALEBEACON_STACK = 2048
};

/* ---- Answers ---------------------------------------------------------------------------------------------------------------------------- */

enum {
    GALEBEACON_ACCEPTED = 0,        /* first frame accepted: send the reply, which is the second frame */
    GALEBEACON_CLOCK = 1,           /* the clock reading is below the latest one, or over 2^48 */
    GALEBEACON_BUFFER_SHORT = 2,    /* the buffer to write to is too short */
    GALEBEACON_SETTINGS = 3,        /* a setting is outside its range */
    GALEBEACON_GROUP_ADDRESS = 4,   /* the address is a group address: the lowest bit of its first octet is 1 */
    GALEBEACON_CACHE = 5,           /* the cache is ill-formed */
    GALEBEACON_OWN_KEY = 6,         /* the unit's own key does not have the group's length and first octet */
    GALEBEACON_BODY_LENGTH = 7,     /* the body has under 6 or over 1,024 octets */
    GALEBEACON_ALGORITHM = 8,       /* the Authentication algorithm is not 7, PASN */
    GALEBEACON_TRANSACTION = 9,     /* the transaction number is neither 1 nor 3 */
    GALEBEACON_PEER_INSTALLED = 10, /* a first frame from a station whose key is installed */
    GALEBEACON_REFUSED = 11,        /* first frame refused: send the reply, which tells the status */
    GALEBEACON_STATUS = 12,         /* a third frame whose status is not 0: the station gave up */
    GALEBEACON_NO_EXCHANGE = 13,    /* a third frame that no exchange waits for, a repeated one too */
    GALEBEACON_THIRD_REFUSED = 14,  /* third frame refused */
    GALEBEACON_INSTALLED = 15,      /* third frame accepted: the key is installed */
    GALEBEACON_REMOVED = 16,        /* the record is removed */
    GALEBEACON_NO_RECORD = 17,      /* no live record of this address */
    GALEBEACON_SHOWN = 18,          /* the record is shown */
    GALEBEACON_MIC_DONE = 19,       /* the MIC is set or zeroed */
    GALEBEACON_NO_MIC = 20          /* the body has no MIC that can be set or zeroed */
};

/* ---- State ------------------------------------------------------------------------------------------------------------------------------ */

enum { GALEBEACON_WAITING = 0, GALEBEACON_KEY_INSTALLED = 1 };

/* What is known of a station. It is live while until_tu is later than the clock reading; after that it is as if absent, and its place is free. */
typedef struct galebeacon_record {
    uint8_t address[6];
    uint8_t has_pmkid;         /* 0 no; anything else yes, written 1 */
    uint8_t pmkid[16];         /* zeros where there is none */
    uint8_t phase;             /* 0 waiting for the third frame; anything else installed, written 1 */
    uint8_t cipher;            /* pairwise cipher suite type: 4, 8, 9 or 10 */
    uint8_t akm;               /* AKM suite type: 5, 6, 8 or 21 */
    uint8_t unused[2];         /* written 0 */
    uint32_t lifetime_seconds; /* how long the key is good for, from its installation on */
    uint64_t until_tu;         /* waiting: the deadline for the third frame; installed: the end of the key */
} galebeacon_record;

/* What a unit keeps: 648 octets with no gap, numbers low octet first, of which these structs are a view. They may be kept in flash and read back by an archive
   of the same layout; the clock must then go on from latest_tu. Any octets are a legal state; galebeacon_empty writes those to start with. In which place
   a record stands means nothing: use galebeacon_look_up. */
typedef struct galebeacon_state {
    galebeacon_record records[GALEBEACON_RECORDS];
    uint64_t latest_tu; /* the latest clock reading; an earlier one is answered 1 */
} galebeacon_state;

/* No record, latest reading 0, whatever stood there before. */
void galebeacon_empty(galebeacon_state *state);

/* ---- Receive ---------------------------------------------------------------------------------------------------------------------------- */

/* The pairwise ciphers that a unit allows: a sum of these. Other bits are ignored. */
enum {
    GALEBEACON_ALLOW_CCMP_128 = 1, /* cipher suite type 4 */
    GALEBEACON_ALLOW_GCMP_128 = 2, /* 8 */
    GALEBEACON_ALLOW_GCMP_256 = 4, /* 9 */
    GALEBEACON_ALLOW_CCMP_256 = 8  /* 10 */
};

typedef struct galebeacon_settings {
    uint8_t allow_pmkless;     /* whether PASN without a PMK (AKM 21) is allowed: 0 no, anything else yes */
    uint8_t allow_ciphers;     /* GALEBEACON_ALLOW_... */
    uint32_t lifetime_seconds; /* 1 to 86,400; a first frame can ask for less */
    uint64_t deadline_tu;      /* 1 to 10,000: how long an exchange waits for its third frame */
} galebeacon_settings;

/* What a receive brings beside its slices. */
typedef struct galebeacon_call {
    galebeacon_settings settings;
    uint64_t reading_tu; /* the clock now, at most 2^48 */
    uint8_t address[6];  /* the station's */
    uint8_t point_valid; /* lent for a first frame: whether the key that it shows is a valid point. 0 no, anything else yes */
} galebeacon_call;

typedef struct galebeacon_receive_result {
    uint8_t answer;  /* 0 to 15 */
    uint16_t status; /* beside answer 11 the status of the refusal; else 0 */
    size_t length;   /* beside 0 and 11 the length of the reply; else 0, and nothing was written */
} galebeacon_receive_result;

/*
 * A frame came in.
 *
 *   cache   the PMKs that the unit has: up to 64 records of 28 octets. Each is 31 hex, 19 hex, 00, the PMKID (16 octets), the AKM suite type (1) and the
 *           end (8 octets, low octet first, in TU). No octets: no PMK.
 *   key     lent for a first frame: the unit's own public key of group 19, 33 octets that begin with 2 or 3, or 65 that begin with 4
 *   mic     lent for a third frame: the 16 octets that its MIC must be
 *   body    the frame's body
 *   reply   at least 148 octets. The first `length` of them are the reply's body; the others keep what they held
 *
 * What is lent for another kind of frame is not looked at, and may have any length.
 *
 * The answer is that of the first check that fails, in this order: 1, 2, 3, 4, 5, 7, 8, 9. Then a first frame is answered 10, 11, 6 or 0, and
 * a third one 13, 12, 14 or 15.
 *
 *   1 to 5         the state is as it was; any other answer sets its latest reading
 *   0              a reply of 100 to 148 octets, the second frame, its MIC zeros (galebeacon_set_mic); the record of this station is now waiting
 *   11             a reply of 6 octets; a waiting record of this station goes, except with status 30
 *   8, 12, 14      a waiting record of this station goes; an installed one stays
 *   15             the record of this station is now installed
 *   6, 7, 9, 10, 13  the records are as they were
 *
 * No other station's record changes.
 *
 * The status beside 11: 40 ill-formed frame or key; 1 a wrapped format, or not a valid point; 41 group cipher; 42 pairwise cipher; 43 AKM; 45 management frame protection;
 * 77 group; 53 PMKID; 30 all sixteen places are taken, and the station may try again.
 */
galebeacon_receive_result galebeacon_receive(
    galebeacon_state *state,
    galebeacon_call call,
    const uint8_t *cache, size_t cache_length,
    const uint8_t *key, size_t key_length,
    const uint8_t *mic, size_t mic_length,
    const uint8_t *body, size_t body_length,
    uint8_t *reply, size_t reply_length);

/* ---- Look up and remove ----------------------------------------------------------------------------------------------------------------- */

/* The live record of a station. 18 shown; 17 no live record; 1 clock; 4 group address. `shown` becomes the record beside 18, and zeros beside any other answer.
   A look-up changes nothing in the state, the latest reading included. */
uint8_t galebeacon_look_up(const galebeacon_state *state, const uint8_t *address, uint64_t reading_tu, galebeacon_record *shown);

/* The record of a station goes, waiting or installed. 16 removed; 17 no live record; 1 clock; 4 group address. Beside 1 and 4 the state is as it was. */
uint8_t galebeacon_remove(galebeacon_state *state, const uint8_t *address, uint64_t reading_tu);

/* ---- Bodies ----------------------------------------------------------------------------------------------------------------------------- */

typedef struct galebeacon_key_place {
    size_t start;  /* the key begins at body + start */
    size_t length; /* 33 or 65; 0 where no key is shown, and then start is 0 too */
} galebeacon_key_place;

/* Where a first frame has the station's public key. No key is shown of a body that is no first frame, is ill-formed, has another group than 19, or has a key
   of a wrong length or first octet. */
galebeacon_key_place galebeacon_show_key(const uint8_t *body, size_t body_length);

/* Copies a second or third frame with its MIC zeroed to the front of `out`; octets past the body's length keep what they held.
   19 done; 20 if the body is not 6 to 1,024 octets of algorithm 7 and transaction 2 or 3 that walk to their end and have exactly one MIC element, of 16
   octets; else 2 if out_length is less than body_length. On 20 and 2 nothing is written. */
uint8_t galebeacon_zero_mic(const uint8_t *body, size_t body_length, uint8_t *out, size_t out_length);

/* Puts the 16 octets of `mic` into a second or third frame. 19 done; 20 if the body is as for galebeacon_zero_mic's 20, or mic_length is not 16, and then
   nothing is written. */
uint8_t galebeacon_set_mic(uint8_t *body, size_t body_length, const uint8_t *mic, size_t mic_length);

/* ---- The layout that the archive was built with ------------------------------------------------------------------------------------------- */

#if defined(__cplusplus) && __cplusplus >= 201103L
#define GALEBEACON_ASSERT(name, fact) static_assert(fact, "the layout of galebeacon's " #name)
#elif defined(__STDC_VERSION__) && __STDC_VERSION__ >= 201112L
#define GALEBEACON_ASSERT(name, fact) _Static_assert(fact, "the layout of galebeacon's " #name)
#else
#define GALEBEACON_ASSERT(name, fact) typedef char galebeacon_assert_##name[(fact) ? 1 : -1]
#endif
#define GALEBEACON_SIZE(type, size) GALEBEACON_ASSERT(type, sizeof(galebeacon_##type) == (size))
#define GALEBEACON_AT(type, field, place) GALEBEACON_ASSERT(type##_##field, offsetof(galebeacon_##type, field) == (place))
GALEBEACON_ASSERT(size_t, sizeof(size_t) == 8);
GALEBEACON_SIZE(record, 40);
GALEBEACON_AT(record, address, 0);
GALEBEACON_AT(record, has_pmkid, 6);
GALEBEACON_AT(record, pmkid, 7);
GALEBEACON_AT(record, phase, 23);
GALEBEACON_AT(record, cipher, 24);
GALEBEACON_AT(record, akm, 25);
GALEBEACON_AT(record, unused, 26);
GALEBEACON_AT(record, lifetime_seconds, 28);
GALEBEACON_AT(record, until_tu, 32);
GALEBEACON_SIZE(state, 648);
GALEBEACON_AT(state, records, 0);
GALEBEACON_AT(state, latest_tu, 640);
GALEBEACON_SIZE(settings, 16);
GALEBEACON_AT(settings, lifetime_seconds, 4);
GALEBEACON_SIZE(call, 32);
GALEBEACON_AT(call, point_valid, 30);
GALEBEACON_SIZE(receive_result, 16);
GALEBEACON_AT(receive_result, status, 2);
GALEBEACON_AT(receive_result, length, 8);
GALEBEACON_SIZE(key_place, 16);
#undef GALEBEACON_SIZE
#undef GALEBEACON_AT
#undef GALEBEACON_ASSERT

#ifdef __cplusplus
}
#endif

#endif
