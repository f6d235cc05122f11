// What the parts of the program `calls` share: demands, datagrams with what their headers say, and key sets. docs/WIRE.md has the bytes.
#ifndef CALLS_H
#define CALLS_H

#include "uapubsub.h"
#include <stdio.h>
#include <stdlib.h>

enum { DATAGRAM_BYTES = 2048 };

#define DEMAND(holds)                                                                       \
    do {                                                                                    \
        if (!(holds)) {                                                                     \
            fprintf(stderr, "%s:%d: not so: %s\n", __FILE__, __LINE__, #holds);             \
            exit(1);                                                                        \
        }                                                                                   \
    } while (0)

// The parts, each of the file that is named after it.
void check_answers(void);
void check_groups(void);
void check_keys(void);
void check_kinds(void);
void check_memory(void);
void check_own(void);
void check_places(void);
void check_readers(void);
void check_refusals(void);
void check_storing(void);
void check_taking_all(void);

// ---- datagrams

struct datagram {
    uint8_t bytes[DATAGRAM_BYTES];
    size_t length;
};

// What the header of a datagram with one message says, of a group that counts its datagrams; the last three where it is secured.
struct header {
    uint32_t group, sequence, writer, token, number, random;
};

static inline uint32_t little_endian(const uint8_t *bytes, int count) {
    uint32_t number = 0;
    while (count-- > 0) number = number << 8 | bytes[count];
    return number;
}

// The publisher's id is a Byte.
static inline struct header header_of(const struct datagram *datagram) {
    bool secured = datagram->bytes[0] == 0xf1;
    const uint8_t *id = datagram->bytes + (secured ? 2 : 1);
    DEMAND(secured ? datagram->bytes[1] == 0x10 : datagram->bytes[0] == 0x71);
    DEMAND(datagram->length >= (secured ? 25u : 10u) && id[1] == 0x09 && id[6] == 1);
    struct header header = {.group = little_endian(id + 2, 2), .sequence = little_endian(id + 4, 2), .writer = little_endian(id + 7, 2)};
    if (!secured) return header;
    DEMAND(id[14] == 8);
    header.token = little_endian(id + 10, 4);
    header.random = little_endian(id + 15, 4);
    header.number = little_endian(id + 19, 4);
    return header;
}

// The bytes that a text spells in hexadecimal.
static inline struct datagram spelled(const char *text) {
    struct datagram datagram = {.length = 0};
    unsigned byte;
    for (int used; sscanf(text, "%2x%n", &byte, &used) == 1; text += used) datagram.bytes[datagram.length++] = (uint8_t)byte;
    return datagram;
}

// ---- both sides

static inline void open_sides(struct uap_handle *publisher, struct uap_handle *subscriber, const char *text) {
    DEMAND(uap_publisher_open(publisher, text, strlen(text)) == UAP_OK);
    DEMAND(uap_subscriber_open(subscriber, text, strlen(text)) == UAP_OK);
}

static inline void close_sides(struct uap_handle *publisher, struct uap_handle *subscriber) {
    DEMAND(uap_close(publisher) == UAP_OK && uap_close(subscriber) == UAP_OK);
}

static inline uint32_t next(struct uap_handle *publisher, uint64_t now, struct datagram *datagram) {
    return uap_publisher_next(publisher, now, datagram->bytes, sizeof datagram->bytes, &datagram->length);
}

// Gives a copy, in memory of just its length, so that a sanitizer sees a byte too far.
static inline uint32_t give(struct uap_handle *subscriber, uint32_t group, uint64_t now, const struct datagram *datagram, struct uap_taken *taken) {
    uint8_t *copy = malloc(datagram->length + (datagram->length == 0));
    DEMAND(copy != NULL);
    memcpy(copy, datagram->bytes, datagram->length);
    uint32_t status = uap_subscriber_datagram(subscriber, group, now, copy, datagram->length, taken);
    free(copy);
    return status;
}

static inline uint32_t answer(struct uap_handle *subscriber, uint32_t group, uint64_t now, const struct datagram *datagram) {
    struct uap_taken taken;
    return give(subscriber, group, now, datagram, &taken);
}

// Whether the datagram is taken, and its one message is given to a reader that can read it.
static inline bool takes(struct uap_handle *subscriber, uint32_t group, uint64_t now, const struct datagram *datagram) {
    struct uap_taken taken = {0, 0, 0};
    return give(subscriber, group, now, datagram, &taken) == UAP_OK && taken.parts == 1 && taken.matched == 1 && taken.bad == 0;
}

// Whether the first reader of the read group holds a row whose first field, a UInt32, has this value.
static inline bool reads(struct uap_handle *subscriber, uint32_t group, uint32_t value) {
    uint32_t held = ~value;
    return uap_get_u32(subscriber, group, 0, 0, &held) == UAP_OK && held == value;
}

// Whether it holds no row, for this reason.
static inline bool waits(struct uap_handle *subscriber, uint32_t group, uint32_t why) {
    uint32_t held, told = ~why;
    return uap_get_u32(subscriber, group, 0, 0, &held) == UAP_NONE && uap_reader_why(subscriber, group, 0, &told) == UAP_NONE && told == why;
}

// Whether it holds a row, and held none before for this reason.
static inline bool has_waited(struct uap_handle *subscriber, uint32_t group, uint32_t why) {
    uint32_t told = ~why;
    return uap_reader_why(subscriber, group, 0, &told) == UAP_OK && told == why;
}

// ---- key sets

#define BYTES4(byte) byte byte byte byte
#define BYTES16(byte) BYTES4(BYTES4(byte))

// A key set in a configuration, whose bytes have this hexadecimal digit in front: 1 and 2 behind it sign, 3 and 4 encrypt, and 5 to 8 begin
// the counter blocks. `key_set` has the same for C.
#define KEY_SET(token, from, digit, encrypting)                                                                                         \
    "[[keygroup.key]]\ntoken = " token "\nfrom = " from "\nsigning = \"" BYTES16(digit "1") BYTES16(digit "2") "\"\nencrypting = \"" \
    encrypting "\"\nnonce = \"" digit "5" digit "6" digit "7" digit "8" "\"\n"
#define SHORT_SET(token, from, digit) KEY_SET(token, from, digit, BYTES16(digit "3"))
#define LONG_SET(token, from, digit) KEY_SET(token, from, digit, BYTES16(digit "3") BYTES16(digit "4"))

static inline struct uap_key_set key_set(uint32_t token, uint64_t from_ms, uint8_t digit) {
    struct uap_key_set set = {.token = token, .from_ms = from_ms};
    uint8_t front = (uint8_t)(digit << 4);
    for (uint8_t i = 0; i < 4; i++) set.nonce[i] = (uint8_t)(front + 5 + i);
    memset(set.signing, front + 1, 16);
    memset(set.signing + 16, front + 2, 16);
    memset(set.encrypting, front + 3, 16);
    memset(set.encrypting + 16, front + 4, 16);
    return set;
}

#endif
