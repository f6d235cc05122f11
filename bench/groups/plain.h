// A publisher and a subscriber as one writes them by hand for a session of one group: the same datagrams (OPC 10000-14, UADP),
// the same rows in words of 64 bits, the same limits, and nothing allocated once they are open. Signatures and encryption are
// OpenSSL's, with contexts that are keyed once.
#ifndef PLAIN_H
#define PLAIN_H
#include <openssl/evp.h>
#include <stdbool.h>
#include <stddef.h>
#include <stdint.h>

enum { WORDS = 125, MAX_FIELDS = 64, MAX_WRITERS = 16, MAX_DATASETS = 8, MAX_DATAGRAMS = 1024, SIGNATURE = 32, TOKEN = 1 };
enum { FRAMES_BYTES = 32768, BUFFER_BYTES = 262144, WHOLE_BYTES = 4096, WINDOW = 1024 };
enum { UINT32 = 7 };

typedef enum { UNSECURED, SIGNED, ENCRYPTED } mode;

// A field's type in a Variant, and its bytes on the wire. Without TEXTS all fields are scalars, each in the word of its own number; with
// it a field of no bytes is a text of at most `cap`, whose length stands in its first word and whose bytes in those behind it.
#ifdef TEXTS
struct field {
    uint8_t type, size;
    uint16_t cap, word;
};
#define WORD_OF(meta, i) (meta)->fields[i].word
#define WORDS_OF(meta) (meta)->words
enum { MESSAGE_WORDS = WORDS };
#else
struct field {
    uint8_t type, size;
};
#define WORD_OF(meta, i) (i)
#define WORDS_OF(meta) (meta)->count
enum { MESSAGE_WORDS = MAX_FIELDS };
#endif

struct meta {
    size_t count;
    struct field fields[MAX_FIELDS];
    uint32_t major, minor;
#ifdef TEXTS
    size_t words;
#endif
};

// What is measured: `writers` writers, and as many readers, by turns of `datasets` data sets.
struct session {
    const char *name;
    size_t fields, datasets, writers;
    uint32_t key_frame_count, max_size;
    mode mode;
    bool fixed;
};

struct row {
    uint64_t words[WORDS];
};

struct keys {
    mode mode;
    EVP_CIPHER_CTX *cipher;
    EVP_MAC_CTX *mac;
    uint8_t counter[16];
};

struct log_entry {
    uint64_t place, version;
};

struct writer {
    uint16_t id, first_number;
    uint8_t dataset;
    bool versions, fresh;
    uint32_t key_frame_count, until_key, offset, size;
    uint64_t keep_alive, sent_at, place;
    struct row row;
    struct log_entry *log;
    size_t logged;
};

struct frame {
    uint16_t writer, id, number, size;
    uint32_t start;
};

struct range {
    uint32_t start, end;
};

struct group {
    uint8_t publisher;
    uint16_t id, sequence;
    bool fixed;
    uint32_t max_size, number, slots_end;
    uint64_t turned_at;
    struct keys keys;
    size_t writer_count, frame_count, datagram_count;
    struct writer writers[MAX_WRITERS];
    struct frame frames[MAX_WRITERS];
    struct range datagrams[MAX_DATAGRAMS];
    uint8_t *bytes;
};

// The moments, the versions and the rows of a turn are those that this repository's side has.
void open_group(struct group *group, const struct session *session, size_t turns);
void close_group(struct group *group);
size_t take_turn(struct group *group, const struct meta *metas, uint64_t now, const struct row *rows, uint64_t version,
                 const bool *on, bool closing);

struct lost {
    uint16_t expected, got;
};

struct reader {
    uint16_t last, number, chunk_number;
    bool placed, holds, late, ready, timed, joining, whole;
    uint8_t dataset, why, recent_count;
    uint32_t offset, size, chunk_total, stamp;
    uint64_t timeout, seen_at, breaks;
    struct row row;
    struct lost recent[8];
    uint64_t cover[WHOLE_BYTES / 64];
    uint8_t joined[WHOLE_BYTES];
};

typedef enum { TAKEN, BAD_HEADER, NOT_OURS, BAD_MODE, BAD_TOKEN, BAD_SIGNATURE, REPEATED, TOO_OLD, NO_IDS, BAD_SIZES } verdict;

struct read_group {
    uint8_t publisher;
    uint16_t id;
    bool fixed, has_high;
    uint32_t high;
    struct keys keys;
    uint64_t window[WINDOW / 64];
    size_t reader_count;
    uint16_t ids[MAX_WRITERS];
    struct reader readers[MAX_WRITERS];
};

struct taken {
    uint32_t parts, matched, bad;
};

void open_read_group(struct read_group *group, const struct session *session, uint16_t id);
void close_read_group(struct read_group *group);
verdict take_datagram(struct read_group *group, const struct meta *metas, uint64_t now, const bool *on, uint8_t *datagram,
                      size_t length, struct taken *taken);

// Keys that both sides have: the signing key has the bytes 0 to 31, the encrypting key 64 and on, the key nonce 51 four times. The
// cipher is AES-128 in counter mode, or CIPHER.
void key_contexts(struct keys *keys, mode mode);
void free_contexts(struct keys *keys);
void add_stream(struct keys *keys, const uint8_t *nonce, uint8_t *bytes, size_t length);
void sign(struct keys *keys, const uint8_t *bytes, size_t length, uint8_t *signature);

// Of a fixed group.
uint32_t slot_offset(const struct session *session, size_t writer);
uint32_t slot_size(const struct session *session);
#endif
