/* uapubsub: OPC UA PubSub for a program in C or C++ that owns its sockets, its clock and its threads. docs/C.md tells how.
 *
 * What a program owes, and nothing checks:
 *   - A handle begins as zeros, and no other byte of it is ever written, read or copied by the program.
 *   - A handle is used by one call at a time, on the thread that opened it, and by no signal handler.
 *   - Each pointer is to memory of the type and the length that stand beside it, which the call alone uses while it runs: an output
 *     doesn't overlap an input, another output or the handle.
 *   - malloc, realloc and free are those of one allocator, which aligns to 16.
 *   - Moments are milliseconds of one clock of the program, for each handle, and don't fall: use one that can't be set back.
 *
 * Indexes count from 0, in the configuration's order. One past 255 is answered UAP_INDEX, as any that is out of range.
 *
 * What a program doesn't owe: a null pointer (also with the length 0), an index out of range, a call of a closed handle, of the other
 * side, a second opening, a value that the field doesn't have, a buffer that is too short and whatever bytes come from a socket are
 * answered by a status.
 */
#ifndef UAPUBSUB_H
#define UAPUBSUB_H

#include <stdbool.h>
#include <stddef.h>
#include <stdint.h>
#include <string.h>

#if UINTPTR_MAX != 0xffffffffffffffff || !defined(__BYTE_ORDER__) || __BYTE_ORDER__ != __ORDER_LITTLE_ENDIAN__
#error "the library is for processors with pointers of 64 bits, whose words have their low byte first"
#endif

/* The version of this header; docs/INSTALL.md says what a number promises. */
#define UAPUBSUB_VERSION_MAJOR 0
#define UAPUBSUB_VERSION_MINOR 1
#define UAPUBSUB_VERSION_PATCH 0
#define UAPUBSUB_VERSION (UAPUBSUB_VERSION_MAJOR * 1000000u + UAPUBSUB_VERSION_MINOR * 1000u + UAPUBSUB_VERSION_PATCH)

#ifdef __cplusplus
extern "C" {
#endif

/* What calls answer. */
enum {
    UAP_OK = 0,              /* it did what it says */
    UAP_NONE = 1,            /* there is nothing: no datagram is due, or no row is held */
    UAP_NULL = 2,            /* a pointer is null */
    UAP_CLOSED = 3,          /* the handle is closed */
    UAP_OPENED = 4,          /* the handle is open already */
    UAP_OTHER_SIDE = 5,      /* the handle is a subscriber's, and the call a publisher's, or the other way about */
    UAP_MEMORY = 6,          /* memory ran out */
    UAP_REFUSED = 7,         /* the configuration is refused: uap_config_check says why, and uap_config_place where */
    UAP_INDEX = 8,           /* there is no such data set, field, key group, group, writer, read group or reader, or the read group has no keys */
    UAP_MISFIT = 9,          /* the field is there, and of another kind, or doesn't have this value or this status */
    UAP_ROOM = 10,           /* the buffer is too short */
    UAP_SPENT = 11,          /* a group that is due can have no turn: fewer than 1,024 numbers are left under its token, or all turns of its life are over */
    UAP_BAD_TEXT = 12,       /* the text isn't UTF-8, or the text or the bytes have more than 256 bytes */
    UAP_MANY_KEYS = 13,      /* there are more than 16 key sets */
    UAP_NO_RING = 14,        /* there is no key set, or tokens and moments don't rise, or the first moment isn't 0 */
    UAP_EARLIER_TOKEN = 15,  /* the key set of the moment is of an earlier token, and what was used under that isn't known */
    UAP_NUMBERS_AGAIN = 16,  /* numbers would be used again: the token is lower than the one in use, or is that one with a greater number used */
    UAP_NO_KIND = 17,        /* no kind of a field, or no list, has this number */
    UAP_STALE = 18,          /* the row that the reader holds is older than that */
    UAP_UNSTORED = 19,       /* a datagram waits until its number is in store: uap_publisher_save, then uap_publisher_stored */
    UAP_DAMAGED = 20,        /* the bytes aren't those that uap_publisher_save laid */
    UAP_OTHER_CONFIG = 21,   /* the bytes are of another configuration */
    UAP_LATER_TOKEN = 22,    /* the bytes have a later token of a key group than its key sets have at this moment */
    UAP_BEGUN = 23,          /* the group had a turn before */

    /* Why a datagram is refused. */
    UAP_HEADER_SHORT = 101,     /* it ends before its header does */
    UAP_VERSION = 102,          /* it isn't of UADP version 1 */
    UAP_DISCOVERY = 103,        /* it is a discovery message */
    UAP_PUBLISHER_TYPE = 104,   /* its PublisherId has a type that the standard reserves */
    UAP_RESERVED = 105,         /* its header has bits that the standard reserves */
    UAP_PUBLISHER_ID = 106,     /* its PublisherId is no String */
    UAP_NOT_OURS = 110,         /* it is another publisher's, another group's, of another version or class */
    UAP_NO_IDS = 111,           /* it has no payload header, which a dynamic layout wants */
    UAP_SIZES = 112,            /* the sizes of its messages pass its end */
    UAP_MODE = 121,             /* it isn't signed or encrypted as the read group wants it */
    UAP_FOOTER = 122,           /* it has a security footer */
    UAP_KEY_RESET = 123,        /* it asks for new keys */
    UAP_NONCE = 124,            /* its nonce hasn't 8 bytes */
    UAP_NO_SIGNATURE = 125,     /* there is no room for its signature */
    UAP_UNKNOWN_TOKEN = 126,    /* no key set has its token */
    UAP_OLD_TOKEN = 127,        /* a datagram of a higher token was taken before */
    UAP_SIGNATURE = 128,        /* its signature is another */
    UAP_REPEATED = 129,         /* one with its token and number was taken before */
    UAP_TOO_OLD = 130           /* its number is 1,024 or more below the greatest one */
};

/* Why a reader waits, or waited before the row that it holds. */
enum {
    UAP_WHY_START = 0,      /* no key frame has come yet */
    UAP_WHY_GAP = 1,        /* a message is missing */
    UAP_WHY_TIMEOUT = 2,    /* its timeout passed */
    UAP_WHY_NEW_TOKEN = 3,  /* the publisher turned to another token */
    UAP_WHY_JUMP = 4,       /* the numbers of datagrams jumped */
    UAP_WHY_RESTARTED = 5   /* it was disabled */
};

/* The kinds of fields: the numbers of their built-in types (OPC 10000-6 section 5.1.2). */
enum {
    UAP_BOOLEAN = 1,
    UAP_SBYTE = 2,
    UAP_BYTE = 3,
    UAP_INT16 = 4,
    UAP_UINT16 = 5,
    UAP_INT32 = 6,
    UAP_UINT32 = 7,
    UAP_INT64 = 8,
    UAP_UINT64 = 9,
    UAP_FLOAT = 10,
    UAP_DOUBLE = 11,
    UAP_STRING = 12,
    UAP_DATE_TIME = 13,
    UAP_GUID = 14,
    UAP_BYTE_STRING = 15,
    UAP_STATUS_CODE = 19
};

/* The lists of a configuration: what uapubsub_count, uapubsub_name and uapubsub_index are asked of. */
enum {
    UAP_DATASETS = 0,
    UAP_FIELDS = 1,      /* of a data set */
    UAP_KEYGROUPS = 2,
    UAP_GROUPS = 3,
    UAP_WRITERS = 4,     /* of a group */
    UAP_READ_GROUPS = 5,
    UAP_READERS = 6      /* of a read group */
};

/* The longest name, with a zero at its end. */
#define UAP_NAME_ROOM 33

/* Why a part of a reader couldn't be read: a message, a chunk of one, or a slot (docs/FAULTS.md). */
enum {
    UAP_FAULT_NONE = 0,         /* each could be read */
    UAP_FAULT_SHORT = 1,        /* the bytes end before the message does */
    UAP_FAULT_ENCODING = 2,     /* field encoding 3, or RawData where it may not be */
    UAP_FAULT_KIND = 3,         /* a value is null, an array, or of a type that no field has */
    UAP_FAULT_VALUE = 4,        /* a value is of another kind than its field, as a StatusCode in a Bad field's place, longer than its cap, or not UTF-8 */
    UAP_FAULT_INDEX = 5,        /* `got` is no field's index */
    UAP_FAULT_COUNT = 6,        /* the key frame has `got` fields, and the data set another number */
    UAP_FAULT_TRAILING = 7,     /* a byte after the end isn't 0 */
    UAP_FAULT_NOT_VALID = 8,    /* the message says that it isn't valid */
    UAP_FAULT_EVENT = 9,        /* it is an event */
    UAP_FAULT_RESERVED = 10,    /* a kind of message or a flag that the standard reserves */
    UAP_FAULT_CHUNK = 20,       /* the bytes end before the chunk does */
    UAP_FAULT_CHUNK_LENGTH = 21,/* the length of the chunk's data is negative */
    UAP_FAULT_TOO_LONG = 22,    /* the message has `got` bytes, more than are joined */
    UAP_FAULT_RANGE = 23,       /* the chunk begins at byte `got` of `of`, and passes the end or has none */
    UAP_FAULT_DIFFERS = 24,     /* the message has `got` bytes, and `of` by the chunks before */
    UAP_FAULT_MISSING = 30      /* the datagram ends before the reader's slot does */
};

/* A handle: UAP_CLOSED_HANDLE before it is opened. What stands in it is the library's. */
struct uap_handle {
    uint32_t is_open;
    void *held;
};

#define UAP_CLOSED_HANDLE {0, NULL}

/* Where a configuration that is refused is at fault. */
struct uap_place {
    uint32_t code;  /* the number of the fault: 1 of C1 BadToml, and so on (docs/CONFIGURATION.md) */
    size_t line;    /* the line, from 1: of C1 that where the reader of TOML ended; else the first with which the text up to it has the table that
                     * is at fault, or the last line where none has */
};

/* The keys of one token. An AES-128 key is the first 16 bytes of `encrypting`. The moment `from_ms` is of the clock of `now_ms`. */
struct uap_key_set {
    uint32_t token;
    uint8_t nonce[4];
    uint64_t from_ms;
    uint8_t signing[32];
    uint8_t encrypting[32];
};

/* The 16 bytes of a Guid as they stand on the wire: the first three fields are little-endian. */
struct uap_guid {
    uint8_t bytes[16];
};

/* What became of the messages of a datagram. */
struct uap_taken {
    uint32_t parts;    /* how many messages, chunks or slots it had */
    uint32_t matched;  /* how often one was given to a reader */
    uint32_t bad;      /* how many of these couldn't be read */
};

/* What a read group answered to a datagram. */
struct uap_answer {
    uint32_t status;         /* UAP_OK: it took it. UAP_HEADER_SHORT .. UAP_TOO_OLD: why it refused it. UAP_INDEX: there is no such read group */
    struct uap_taken taken;  /* what became of the messages; zeros where it didn't take it */
};

/* What the read groups answered to a datagram, by their indexes. */
struct uap_takings {
    uint32_t took;                /* how many took it */
    struct uap_answer groups[4];
};

/* How many bytes uap_publisher_save lays. */
#define UAP_STATE_BYTES 336

/* How many bytes uap_subscriber_take takes at most. */
#define UAP_MOST_DATAGRAM_BYTES 65536

/* What a field is. */
struct uap_field {
    uint32_t kind;     /* UAP_BOOLEAN .. UAP_STATUS_CODE */
    uint32_t cap;      /* how many bytes a String or a ByteString may have; else 0 */
    uint32_t quality;  /* 1 where each value has a status of its own, else 0 */
};

/* Why parts of a reader couldn't be read, since the subscriber was opened. */
struct uap_fault {
    uint64_t bad;    /* how many couldn't */
    uint32_t fault;  /* why the last one couldn't: UAP_FAULT_.. */
    uint32_t got;    /* what it had, as its fault says; else 0 */
    uint32_t of;     /* of how many bytes, as its fault says; else 0 */
    uint32_t field, has_field;  /* the field whose value has it: its place in a key frame, its index in a delta frame. What isn't there is 0 */
    uint32_t kind, has_kind;    /* the type byte of its value: UAP_BOOLEAN .. UAP_STATUS_CODE, or another */
};

/* What a reader received, since the subscriber was opened. */
struct uap_received {
    uint64_t lost;      /* how many messages were missing by their numbers. One that comes late stays counted; a cut counts none */
    uint64_t stored;    /* how often a row was stored */
    uint64_t seen_ms;   /* the moment of the last message that it took */
    uint32_t has_seen;  /* 1 where there was one, else 0 */
};

/* The last datagram that a read group accepted under a security header. */
struct uap_last_taken {
    uint32_t token;   /* its SecurityTokenId */
    uint32_t number;  /* the number in its nonce */
};

/* How many messages a reader passed over, since the subscriber was opened. */
struct uap_passed {
    uint64_t other_major;  /* of another major version of the data set */
    uint64_t unnumbered;   /* without a number, where the reader goes by numbers; delta frames, where it goes by none */
    uint64_t older;        /* not newer than the last one that it took */
    uint32_t major;        /* the other major version of the last one */
    uint32_t has_major;    /* 1 where there was one, else 0 */
};

/* What a read group refused, since the subscriber was opened. Of the last datagram it tells whose it was, as its header has it, where the
 * status is UAP_NOT_OURS, and the token where that is unknown or old. What isn't there is 0, and its `has_..` too. Datagrams of other groups at the
 * same port count too, as UAP_NOT_OURS: count damaged ones by struct uap_takings. */
struct uap_refused {
    uint64_t count;           /* how many datagrams */
    uint64_t publisher;       /* the PublisherId, where it is a number */
    uint32_t status;          /* why the last one: UAP_HEADER_SHORT .. UAP_TOO_OLD; UAP_OK where none was */
    uint32_t publisher_type;  /* UAP_BYTE, UAP_UINT16, UAP_UINT32, UAP_UINT64 or UAP_STRING; 0 where it has no PublisherId */
    uint32_t group, has_group;      /* the WriterGroupId */
    uint32_t version, has_version;  /* the GroupVersion */
    uint32_t number, has_number;    /* the NetworkMessageNumber */
    uint32_t token, has_token;      /* the SecurityTokenId */
};

/* How C and C++ cast. */
#ifdef __cplusplus
#define UAP_CAST(type, it) static_cast<type>(it)
#else
#define UAP_CAST(type, it) ((type)(it))
#endif
#define UAP_BYTES(it) UAP_CAST(uint8_t *, UAP_CAST(void *, it))
#define UAP_TEXT(it) UAP_CAST(const uint8_t *, UAP_CAST(const void *, it))

/* ---- the proved calls, which take no null pointer. The calls below them test that first. */

uint32_t uapubsub_config_check(const uint8_t *text, size_t length, uint8_t *error, size_t room, size_t *written);
uint32_t uapubsub_config_place(const uint8_t *text, size_t length, struct uap_place *place);
uint32_t uapubsub_close(struct uap_handle *handle);
uint32_t uapubsub_count(struct uap_handle *handle, uint32_t list, uint32_t of, size_t *count);
uint32_t uapubsub_name(struct uap_handle *handle, uint32_t list, uint32_t of, uint32_t index, uint8_t *buffer, size_t room, size_t *length);
uint32_t uapubsub_index(struct uap_handle *handle, uint32_t list, uint32_t of, const uint8_t *name, size_t length, uint32_t *index);
uint32_t uapubsub_field_info(struct uap_handle *handle, uint32_t set, uint32_t field, struct uap_field *info);
uint32_t uapubsub_publisher_open(struct uap_handle *handle, const uint8_t *text, size_t length);
uint32_t uapubsub_publisher_next(struct uap_handle *handle, uint64_t now_ms, uint8_t *buffer, size_t room, size_t *length);
uint32_t uapubsub_publisher_due(struct uap_handle *handle, uint64_t now_ms, uint64_t *moment_ms);
uint32_t uapubsub_publisher_group(struct uap_handle *handle, uint32_t *group);
uint32_t uapubsub_group_may_turn(struct uap_handle *handle, uint32_t group);
uint32_t uapubsub_own_word(struct uap_handle *handle, uint32_t set, uint32_t field, uint32_t kind, uint64_t *word);
uint32_t uapubsub_own_text(struct uap_handle *handle, uint32_t set, uint32_t field, uint8_t *buffer, size_t room, size_t *length);
uint32_t uapubsub_own_bytes(struct uap_handle *handle, uint32_t set, uint32_t field, uint8_t *buffer, size_t room, size_t *length);
uint32_t uapubsub_own_guid(struct uap_handle *handle, uint32_t set, uint32_t field, struct uap_guid *guid);
uint32_t uapubsub_own_field_status(struct uap_handle *handle, uint32_t set, uint32_t field, uint32_t *status);
uint32_t uapubsub_publisher_standing(struct uap_handle *handle, uint32_t keygroup, uint32_t *token, uint32_t *used);
uint32_t uapubsub_publisher_resume(struct uap_handle *handle, uint32_t keygroup, uint64_t now_ms, uint32_t used);
uint32_t uapubsub_publisher_resume_with(struct uap_handle *handle, uint32_t keygroup, uint64_t now_ms, uint32_t token, uint32_t used,
                                        const struct uap_key_set *sets, size_t count);
uint32_t uapubsub_publisher_renew(struct uap_handle *handle, uint32_t keygroup, const struct uap_key_set *sets, size_t count);
uint32_t uapubsub_publisher_save(struct uap_handle *handle, uint32_t ahead, uint8_t *buffer, size_t room, size_t *length);
uint32_t uapubsub_publisher_stored(struct uap_handle *handle);
uint32_t uapubsub_publisher_must_store(struct uap_handle *handle);
uint32_t uapubsub_publisher_restore(struct uap_handle *handle, uint64_t now_ms, const uint8_t *bytes, size_t length);
uint32_t uapubsub_state_token(const uint8_t *bytes, size_t length, uint32_t keygroup, uint32_t *token);
uint32_t uapubsub_state_used(const uint8_t *bytes, size_t length, uint32_t keygroup, uint32_t *used);
uint32_t uapubsub_state_message(const uint8_t *bytes, size_t length, uint32_t group, uint32_t writer, uint16_t *number);
uint32_t uapubsub_writer_begin_at(struct uap_handle *handle, uint32_t group, uint32_t writer, uint16_t number);
uint32_t uapubsub_writer_enable(struct uap_handle *handle, uint32_t group, uint32_t writer);
uint32_t uapubsub_writer_disable(struct uap_handle *handle, uint32_t group, uint32_t writer);
uint32_t uapubsub_subscriber_open(struct uap_handle *handle, const uint8_t *text, size_t length);
uint32_t uapubsub_subscriber_datagram(struct uap_handle *handle, uint32_t group, uint64_t now_ms, uint8_t *bytes, size_t length, struct uap_taken *taken);
uint32_t uapubsub_subscriber_take(struct uap_handle *handle, uint64_t now_ms, const uint8_t *bytes, size_t length, struct uap_takings *takings);
uint32_t uapubsub_subscriber_expire(struct uap_handle *handle, uint64_t now_ms);
uint32_t uapubsub_subscriber_renew(struct uap_handle *handle, uint32_t group, const struct uap_key_set *sets, size_t count);
uint32_t uapubsub_reader_enable(struct uap_handle *handle, uint32_t group, uint32_t reader);
uint32_t uapubsub_reader_disable(struct uap_handle *handle, uint32_t group, uint32_t reader);
uint32_t uapubsub_reader_why(struct uap_handle *handle, uint32_t group, uint32_t reader, uint32_t *why);
uint32_t uapubsub_reader_number(struct uap_handle *handle, uint32_t group, uint32_t reader, uint16_t *number);
uint32_t uapubsub_reader_age(struct uap_handle *handle, uint32_t group, uint32_t reader, uint64_t now_ms, uint64_t *age_ms);
uint32_t uapubsub_reader_is_fresh(struct uap_handle *handle, uint32_t group, uint32_t reader, uint64_t now_ms, uint64_t bound_ms);
uint32_t uapubsub_reader_last_fault(struct uap_handle *handle, uint32_t group, uint32_t reader, struct uap_fault *fault);
uint32_t uapubsub_reader_passed(struct uap_handle *handle, uint32_t group, uint32_t reader, struct uap_passed *passed);
uint32_t uapubsub_reader_received(struct uap_handle *handle, uint32_t group, uint32_t reader, struct uap_received *received);
uint32_t uapubsub_read_group_refused(struct uap_handle *handle, uint32_t group, struct uap_refused *refused);
uint32_t uapubsub_read_group_last_taken(struct uap_handle *handle, uint32_t group, struct uap_last_taken *taken);
uint32_t uapubsub_read_group_only(struct uap_handle *handle, uint32_t group, uint16_t number);
uint32_t uapubsub_subscriber_due(struct uap_handle *handle, uint64_t now_ms, uint64_t *moment_ms);
uint32_t uapubsub_set_word(struct uap_handle *handle, uint32_t set, uint32_t field, uint32_t kind, uint64_t word);
uint32_t uapubsub_set_text(struct uap_handle *handle, uint32_t set, uint32_t field, const uint8_t *text, size_t length);
uint32_t uapubsub_set_bytes(struct uap_handle *handle, uint32_t set, uint32_t field, const uint8_t *bytes, size_t length);
uint32_t uapubsub_set_guid(struct uap_handle *handle, uint32_t set, uint32_t field, const struct uap_guid *guid);
uint32_t uapubsub_set_field_status(struct uap_handle *handle, uint32_t set, uint32_t field, uint32_t status);
uint32_t uapubsub_get_word(struct uap_handle *handle, uint32_t group, uint32_t reader, uint32_t field, uint32_t kind, uint64_t *word);
uint32_t uapubsub_get_text(struct uap_handle *handle, uint32_t group, uint32_t reader, uint32_t field, uint8_t *buffer, size_t room, size_t *length);
uint32_t uapubsub_get_bytes(struct uap_handle *handle, uint32_t group, uint32_t reader, uint32_t field, uint8_t *buffer, size_t room, size_t *length);
uint32_t uapubsub_get_guid(struct uap_handle *handle, uint32_t group, uint32_t reader, uint32_t field, struct uap_guid *guid);
uint32_t uapubsub_get_field_status(struct uap_handle *handle, uint32_t group, uint32_t reader, uint32_t field, uint32_t *status);

/* The version of the library, as UAPUBSUB_VERSION. It isn't one of the proved calls: it stands in libuapubsub.a and libuapubsub.so, and not in
 * libuapubsub_c.a. */
uint32_t uapubsub_version(void);

/* ---- both sides */

/* The version of the library that is linked or loaded, as UAPUBSUB_VERSION. */
static inline uint32_t uap_version(void) {
    return uapubsub_version();
}

/* Whether that library does what this header says: it has the same major number, while that is 0 the same minor one too, and isn't older. */
static inline bool uap_version_fits(void) {
    const uint32_t linked = uapubsub_version(), unit = UAPUBSUB_VERSION_MAJOR == 0 ? 1000u : 1000000u;
    return linked / unit == UAPUBSUB_VERSION / unit && linked >= UAPUBSUB_VERSION;
}

/* Judges a configuration. With UAP_REFUSED the line that `uapubsub check` prints, without its end and without a zero, is laid at the front
 * of `error`, as far as there is room, and `written` is how many bytes of it are laid; else it is 0. */
static inline uint32_t uap_config_check(const void *text, size_t length, char *error, size_t room, size_t *written) {
    if (text == NULL || error == NULL || written == NULL) return UAP_NULL;
    return uapubsub_config_check(UAP_TEXT(text), length, UAP_BYTES(error), room, written);
}

/* Where a configuration is at fault that uap_config_check, or an opening, answers UAP_REFUSED to. UAP_NONE: it is none that is refused. The text is
 * read once for each line up to that one, so this is for a person who waits, and not for a loop. */
static inline uint32_t uap_config_place(const void *text, size_t length, struct uap_place *place) {
    if (text == NULL || place == NULL) return UAP_NULL;
    return uapubsub_config_place(UAP_TEXT(text), length, place);
}

/* Closes a handle of either side, and gives back its memory. */
static inline uint32_t uap_close(struct uap_handle *handle) {
    if (handle == NULL) return UAP_NULL;
    return uapubsub_close(handle);
}

/* The name of a part of a list, with a zero at its end. UAP_ROOM: `room` is less than UAP_NAME_ROOM, and nothing is written. */
static inline uint32_t uap_name(struct uap_handle *handle, uint32_t list, uint32_t of, uint32_t index, char *buffer, size_t room) {
    size_t length;
    if (handle == NULL || buffer == NULL) return UAP_NULL;
    if (room < UAP_NAME_ROOM) return UAP_ROOM;
    uint32_t status = uapubsub_name(handle, list, of, index, UAP_BYTES(buffer), room - 1, &length);
    if (status == UAP_OK) buffer[length] = 0;
    return status;
}

static inline uint32_t uap_index(struct uap_handle *handle, uint32_t list, uint32_t of, const char *name, uint32_t *index) {
    if (handle == NULL || name == NULL || index == NULL) return UAP_NULL;
    return uapubsub_index(handle, list, of, UAP_TEXT(name), strlen(name), index);
}

static inline uint32_t uap_count(struct uap_handle *handle, uint32_t list, uint32_t of, size_t *count) {
    if (handle == NULL || count == NULL) return UAP_NULL;
    return uapubsub_count(handle, list, of, count);
}

/* What there is, of either side: how many, the name of each, and the index of a name. The name has a zero at its end, and `room` is at least
 * UAP_NAME_ROOM. uap_dataset_count(handle, &count), uap_dataset_name(handle, index, name, sizeof name), uap_dataset_index(handle, "drive", &index),
 * and the same for key groups, groups and read groups. */
#define UAP_LISTS(what, list)                                                                                                  \
    static inline uint32_t uap_##what##_count(struct uap_handle *handle, size_t *count) {                                      \
        return uap_count(handle, list, 0, count);                                                                              \
    }                                                                                                                          \
    static inline uint32_t uap_##what##_name(struct uap_handle *handle, uint32_t index, char *buffer, size_t room) {           \
        return uap_name(handle, list, 0, index, buffer, room);                                                                 \
    }                                                                                                                          \
    static inline uint32_t uap_##what##_index(struct uap_handle *handle, const char *name, uint32_t *index) {                  \
        return uap_index(handle, list, 0, name, index);                                                                        \
    }
UAP_LISTS(dataset, UAP_DATASETS)
UAP_LISTS(keygroup, UAP_KEYGROUPS)
UAP_LISTS(group, UAP_GROUPS)
UAP_LISTS(read_group, UAP_READ_GROUPS)
#undef UAP_LISTS

/* The same of the parts of a part: uap_field_count(handle, set, &count), uap_field_name(handle, set, index, name, sizeof name),
 * uap_field_index(handle, set, "speed", &index), and the same for the writers of a group and the readers of a read group. */
#define UAP_LISTS(what, list)                                                                                                           \
    static inline uint32_t uap_##what##_count(struct uap_handle *handle, uint32_t of, size_t *count) {                                  \
        return uap_count(handle, list, of, count);                                                                                      \
    }                                                                                                                                   \
    static inline uint32_t uap_##what##_name(struct uap_handle *handle, uint32_t of, uint32_t index, char *buffer, size_t room) {       \
        return uap_name(handle, list, of, index, buffer, room);                                                                         \
    }                                                                                                                                   \
    static inline uint32_t uap_##what##_index(struct uap_handle *handle, uint32_t of, const char *name, uint32_t *index) {              \
        return uap_index(handle, list, of, name, index);                                                                                \
    }
UAP_LISTS(field, UAP_FIELDS)
UAP_LISTS(writer, UAP_WRITERS)
UAP_LISTS(reader, UAP_READERS)
#undef UAP_LISTS

/* What a field of a data set is: its kind, its cap, and whether its values have statuses. */
static inline uint32_t uap_field_info(struct uap_handle *handle, uint32_t set, uint32_t field, struct uap_field *info) {
    if (handle == NULL || info == NULL) return UAP_NULL;
    return uapubsub_field_info(handle, set, field, info);
}

/* ---- names */

#define UAP_NAMED(number) \
    case number:          \
        return #number

/* The name of a status, as it stands above: "UAP_OK"; "?" where there is none. */
static inline const char *uap_status_name(uint32_t status) {
    switch (status) {
        UAP_NAMED(UAP_OK);
        UAP_NAMED(UAP_NONE);
        UAP_NAMED(UAP_NULL);
        UAP_NAMED(UAP_CLOSED);
        UAP_NAMED(UAP_OPENED);
        UAP_NAMED(UAP_OTHER_SIDE);
        UAP_NAMED(UAP_MEMORY);
        UAP_NAMED(UAP_REFUSED);
        UAP_NAMED(UAP_INDEX);
        UAP_NAMED(UAP_MISFIT);
        UAP_NAMED(UAP_ROOM);
        UAP_NAMED(UAP_SPENT);
        UAP_NAMED(UAP_BAD_TEXT);
        UAP_NAMED(UAP_MANY_KEYS);
        UAP_NAMED(UAP_NO_RING);
        UAP_NAMED(UAP_EARLIER_TOKEN);
        UAP_NAMED(UAP_NUMBERS_AGAIN);
        UAP_NAMED(UAP_NO_KIND);
        UAP_NAMED(UAP_STALE);
        UAP_NAMED(UAP_UNSTORED);
        UAP_NAMED(UAP_DAMAGED);
        UAP_NAMED(UAP_OTHER_CONFIG);
        UAP_NAMED(UAP_LATER_TOKEN);
        UAP_NAMED(UAP_BEGUN);
        UAP_NAMED(UAP_HEADER_SHORT);
        UAP_NAMED(UAP_VERSION);
        UAP_NAMED(UAP_DISCOVERY);
        UAP_NAMED(UAP_PUBLISHER_TYPE);
        UAP_NAMED(UAP_RESERVED);
        UAP_NAMED(UAP_PUBLISHER_ID);
        UAP_NAMED(UAP_NOT_OURS);
        UAP_NAMED(UAP_NO_IDS);
        UAP_NAMED(UAP_SIZES);
        UAP_NAMED(UAP_MODE);
        UAP_NAMED(UAP_FOOTER);
        UAP_NAMED(UAP_KEY_RESET);
        UAP_NAMED(UAP_NONCE);
        UAP_NAMED(UAP_NO_SIGNATURE);
        UAP_NAMED(UAP_UNKNOWN_TOKEN);
        UAP_NAMED(UAP_OLD_TOKEN);
        UAP_NAMED(UAP_SIGNATURE);
        UAP_NAMED(UAP_REPEATED);
        UAP_NAMED(UAP_TOO_OLD);
        default: return "?";
    }
}

/* The name of a reason to wait, as it stands above: "UAP_WHY_GAP"; "?" where there is none. */
static inline const char *uap_why_name(uint32_t why) {
    switch (why) {
        UAP_NAMED(UAP_WHY_START);
        UAP_NAMED(UAP_WHY_GAP);
        UAP_NAMED(UAP_WHY_TIMEOUT);
        UAP_NAMED(UAP_WHY_NEW_TOKEN);
        UAP_NAMED(UAP_WHY_JUMP);
        UAP_NAMED(UAP_WHY_RESTARTED);
        default: return "?";
    }
}

/* The name of a fault of a part, as it stands above: "UAP_FAULT_KIND"; "?" where there is none. */
static inline const char *uap_fault_name(uint32_t fault) {
    switch (fault) {
        UAP_NAMED(UAP_FAULT_NONE);
        UAP_NAMED(UAP_FAULT_SHORT);
        UAP_NAMED(UAP_FAULT_ENCODING);
        UAP_NAMED(UAP_FAULT_KIND);
        UAP_NAMED(UAP_FAULT_VALUE);
        UAP_NAMED(UAP_FAULT_INDEX);
        UAP_NAMED(UAP_FAULT_COUNT);
        UAP_NAMED(UAP_FAULT_TRAILING);
        UAP_NAMED(UAP_FAULT_NOT_VALID);
        UAP_NAMED(UAP_FAULT_EVENT);
        UAP_NAMED(UAP_FAULT_RESERVED);
        UAP_NAMED(UAP_FAULT_CHUNK);
        UAP_NAMED(UAP_FAULT_CHUNK_LENGTH);
        UAP_NAMED(UAP_FAULT_TOO_LONG);
        UAP_NAMED(UAP_FAULT_RANGE);
        UAP_NAMED(UAP_FAULT_DIFFERS);
        UAP_NAMED(UAP_FAULT_MISSING);
        default: return "?";
    }
}

#undef UAP_NAMED

/* ---- the publisher */

/* Opens a publisher of a configuration. It takes all memory that it ever needs. */
static inline uint32_t uap_publisher_open(struct uap_handle *handle, const void *text, size_t length) {
    if (handle == NULL || text == NULL) return UAP_NULL;
    return uapubsub_publisher_open(handle, UAP_TEXT(text), length);
}

/* Sets a scalar field of a data set, by both indexes, to the value with this word: a Boolean is 0 or 1, a signed number the two's complement
 * of its own width, a Float or a Double its bits. A turn reads what was set last. */
static inline uint32_t uap_set_word(struct uap_handle *handle, uint32_t set, uint32_t field, uint32_t kind, uint64_t word) {
    if (handle == NULL) return UAP_NULL;
    return uapubsub_set_word(handle, set, field, kind, word);
}

/* The same for each kind, with its own type: uap_set_bool(handle, set, field, value) and so on. A DateTime counts steps of 100 ns since
 * 1601-01-01 UTC; of a Float or a Double `_bits` sets its bits. */
#define UAP_SETS(name, type, width, kind)                                                                               \
    static inline uint32_t uap_set_##name(struct uap_handle *handle, uint32_t set, uint32_t field, type value) {        \
        return uap_set_word(handle, set, field, kind, UAP_CAST(width, value));                                          \
    }
UAP_SETS(bool, bool, uint8_t, UAP_BOOLEAN)
UAP_SETS(i8, int8_t, uint8_t, UAP_SBYTE)
UAP_SETS(u8, uint8_t, uint8_t, UAP_BYTE)
UAP_SETS(i16, int16_t, uint16_t, UAP_INT16)
UAP_SETS(u16, uint16_t, uint16_t, UAP_UINT16)
UAP_SETS(i32, int32_t, uint32_t, UAP_INT32)
UAP_SETS(u32, uint32_t, uint32_t, UAP_UINT32)
UAP_SETS(i64, int64_t, uint64_t, UAP_INT64)
UAP_SETS(u64, uint64_t, uint64_t, UAP_UINT64)
UAP_SETS(f32_bits, uint32_t, uint32_t, UAP_FLOAT)
UAP_SETS(f64_bits, uint64_t, uint64_t, UAP_DOUBLE)
UAP_SETS(date_time, int64_t, uint64_t, UAP_DATE_TIME)
UAP_SETS(status_code, uint32_t, uint32_t, UAP_STATUS_CODE)
#undef UAP_SETS

static inline uint32_t uap_set_f32(struct uap_handle *handle, uint32_t set, uint32_t field, float value) {
    uint32_t bits;
    memcpy(&bits, &value, sizeof bits);
    return uap_set_f32_bits(handle, set, field, bits);
}

static inline uint32_t uap_set_f64(struct uap_handle *handle, uint32_t set, uint32_t field, double value) {
    uint64_t bits;
    memcpy(&bits, &value, sizeof bits);
    return uap_set_f64_bits(handle, set, field, bits);
}

/* Sets a String to a text that ends with a zero. */
static inline uint32_t uap_set_text(struct uap_handle *handle, uint32_t set, uint32_t field, const char *text) {
    if (handle == NULL || text == NULL) return UAP_NULL;
    return uapubsub_set_text(handle, set, field, UAP_TEXT(text), strlen(text));
}

static inline uint32_t uap_set_bytes(struct uap_handle *handle, uint32_t set, uint32_t field, const void *bytes, size_t length) {
    if (handle == NULL || bytes == NULL) return UAP_NULL;
    return uapubsub_set_bytes(handle, set, field, UAP_TEXT(bytes), length);
}

static inline uint32_t uap_set_guid(struct uap_handle *handle, uint32_t set, uint32_t field, const struct uap_guid *guid) {
    if (handle == NULL || guid == NULL) return UAP_NULL;
    return uapubsub_set_guid(handle, set, field, guid);
}

/* Sets the status of a field, a StatusCode (0 is Good), and leaves its value. A data set without quality has none but Good. The calls
 * above that set a text, bytes or a Guid make the field Good; those that set a scalar leave its status. */
static inline uint32_t uap_set_field_status(struct uap_handle *handle, uint32_t set, uint32_t field, uint32_t status) {
    if (handle == NULL) return UAP_NULL;
    return uapubsub_set_field_status(handle, set, field, status);
}

/* Switches a writer on or off, by the indexes of its group and of the writer in it. At first all are on. One that is switched on sends a
 * key frame next. */
static inline uint32_t uap_writer_enable(struct uap_handle *handle, uint32_t group, uint32_t writer) {
    if (handle == NULL) return UAP_NULL;
    return uapubsub_writer_enable(handle, group, writer);
}

static inline uint32_t uap_writer_disable(struct uap_handle *handle, uint32_t group, uint32_t writer) {
    if (handle == NULL) return UAP_NULL;
    return uapubsub_writer_disable(handle, group, writer);
}

/* The first data message of a writer has this number, in place of the configuration's first_number: one from a clock, or that goes on from the
 * last life. Call it before the group's first turn. UAP_BEGUN: the group had one. uap_publisher_restore does so for all writers. */
static inline uint32_t uap_writer_begin_at(struct uap_handle *handle, uint32_t group, uint32_t writer, uint16_t number) {
    if (handle == NULL) return UAP_NULL;
    return uapubsub_writer_begin_at(handle, group, writer, number);
}

/* The next datagram that is due, laid into `buffer`; UAP_NONE where no other is. With UAP_ROOM it has `length` bytes, and waits.
 * Groups have their turns as they are due, each at multiples of its interval. Where a token changes as its key's moment comes, the groups
 * with these keys send key frames next. UAP_UNSTORED: one is due, and waits until its number is in store
 * (uap_publisher_save). */
static inline uint32_t uap_publisher_next(struct uap_handle *handle, uint64_t now_ms, void *buffer, size_t room, size_t *length) {
    if (handle == NULL || buffer == NULL || length == NULL) return UAP_NULL;
    return uapubsub_publisher_next(handle, now_ms, UAP_BYTES(buffer), room, length);
}

/* The first moment from `now_ms` on at which uap_publisher_next has something to do: a group is due that may have its turn, or a key's moment
 * comes. It is `now_ms` where a datagram waits. UAP_NONE: never. So a loop knows how long it may sleep. A spent group isn't due. */
static inline uint32_t uap_publisher_due(struct uap_handle *handle, uint64_t now_ms, uint64_t *moment_ms) {
    if (handle == NULL || moment_ms == NULL) return UAP_NULL;
    return uapubsub_publisher_due(handle, now_ms, moment_ms);
}

/* The index of the group that the datagram is of which uap_publisher_next gave: call it right after UAP_OK. */
static inline uint32_t uap_publisher_group(struct uap_handle *handle, uint32_t *group) {
    if (handle == NULL || group == NULL) return UAP_NULL;
    return uapubsub_publisher_group(handle, group);
}

/* UAP_OK: the group may have a turn. UAP_SPENT: it may have none, as uap_publisher_next says of one that is due. */
static inline uint32_t uap_group_may_turn(struct uap_handle *handle, uint32_t group) {
    if (handle == NULL) return UAP_NULL;
    return uapubsub_group_may_turn(handle, group);
}

/* Gets a scalar field of the publisher's own row, as it was set last: its word by the number of its kind. */
static inline uint32_t uap_own_word(struct uap_handle *handle, uint32_t set, uint32_t field, uint32_t kind, uint64_t *word) {
    if (handle == NULL || word == NULL) return UAP_NULL;
    return uapubsub_own_word(handle, set, field, kind, word);
}

/* The same for each kind, with its own type: uap_own_bool(handle, set, field, &value) and so on. */
#define UAP_OWNS(name, type, width, kind)                                                                               \
    static inline uint32_t uap_own_##name(struct uap_handle *handle, uint32_t set, uint32_t field, type *value) {       \
        uint64_t word = 0;                                                                                              \
        if (value == NULL) return UAP_NULL;                                                                             \
        uint32_t status = uap_own_word(handle, set, field, kind, &word);                                                \
        if (status == UAP_OK) *value = UAP_CAST(type, UAP_CAST(width, word));                                           \
        return status;                                                                                                  \
    }
UAP_OWNS(bool, bool, uint8_t, UAP_BOOLEAN)
UAP_OWNS(i8, int8_t, uint8_t, UAP_SBYTE)
UAP_OWNS(u8, uint8_t, uint8_t, UAP_BYTE)
UAP_OWNS(i16, int16_t, uint16_t, UAP_INT16)
UAP_OWNS(u16, uint16_t, uint16_t, UAP_UINT16)
UAP_OWNS(i32, int32_t, uint32_t, UAP_INT32)
UAP_OWNS(u32, uint32_t, uint32_t, UAP_UINT32)
UAP_OWNS(i64, int64_t, uint64_t, UAP_INT64)
UAP_OWNS(u64, uint64_t, uint64_t, UAP_UINT64)
UAP_OWNS(f32_bits, uint32_t, uint32_t, UAP_FLOAT)
UAP_OWNS(f64_bits, uint64_t, uint64_t, UAP_DOUBLE)
UAP_OWNS(date_time, int64_t, uint64_t, UAP_DATE_TIME)
UAP_OWNS(status_code, uint32_t, uint32_t, UAP_STATUS_CODE)
#undef UAP_OWNS

/* A text, bytes, a Guid and the status of a field of the publisher's own row, as uap_get_text and its like get those of a reader's. */
static inline uint32_t uap_own_text(struct uap_handle *handle, uint32_t set, uint32_t field, char *buffer, size_t room, size_t *length) {
    if (handle == NULL || buffer == NULL || length == NULL) return UAP_NULL;
    return uapubsub_own_text(handle, set, field, UAP_BYTES(buffer), room, length);
}

static inline uint32_t uap_own_bytes(struct uap_handle *handle, uint32_t set, uint32_t field, void *buffer, size_t room, size_t *length) {
    if (handle == NULL || buffer == NULL || length == NULL) return UAP_NULL;
    return uapubsub_own_bytes(handle, set, field, UAP_BYTES(buffer), room, length);
}

static inline uint32_t uap_own_guid(struct uap_handle *handle, uint32_t set, uint32_t field, struct uap_guid *guid) {
    if (handle == NULL || guid == NULL) return UAP_NULL;
    return uapubsub_own_guid(handle, set, field, guid);
}

static inline uint32_t uap_own_field_status(struct uap_handle *handle, uint32_t set, uint32_t field, uint32_t *status) {
    if (handle == NULL || status == NULL) return UAP_NULL;
    return uapubsub_own_field_status(handle, set, field, status);
}

/* The token in use of a key group, and the number used last under it: what a device stores, with room above, before it sends. */
static inline uint32_t uap_publisher_standing(struct uap_handle *handle, uint32_t keygroup, uint32_t *token, uint32_t *used) {
    if (handle == NULL || token == NULL || used == NULL) return UAP_NULL;
    return uapubsub_publisher_standing(handle, keygroup, token, used);
}

/* A key group goes on behind `used` numbers of the configuration's last key set whose moment has come: what a device calls after a
 * restart, before its first uap_publisher_next, where the key in use stands in the configuration: `used` is of the token that
 * uap_publisher_standing then tells. A ring that uap_publisher_renew gave is dropped. Where the token in use changes by it, the groups with
 * these keys send key frames next; under the same token they go on as they were. UAP_NUMBERS_AGAIN: that token is lower than the one in
 * use, or is that one with a greater number used. */
static inline uint32_t uap_publisher_resume(struct uap_handle *handle, uint32_t keygroup, uint64_t now_ms, uint32_t used) {
    if (handle == NULL) return UAP_NULL;
    return uapubsub_publisher_resume(handle, keygroup, now_ms, used);
}

/* The same with other key sets, as `uap_publisher_renew` has them: what a device calls after a restart with the ring that it was renewed
 * with last. `token` and `used` are those that uap_publisher_standing told last, or a greater number. UAP_MANY_KEYS and UAP_NO_RING: the key
 * sets make no ring. UAP_EARLIER_TOKEN: that of the moment is of an earlier token, and what was used under that one isn't known. Under a later token `used` numbers are passed over, and key
 * frames follow, as above. */
static inline uint32_t uap_publisher_resume_with(struct uap_handle *handle, uint32_t keygroup, uint64_t now_ms, uint32_t token, uint32_t used,
                                                 const struct uap_key_set *sets, size_t count) {
    if (handle == NULL || sets == NULL) return UAP_NULL;
    return uapubsub_publisher_resume_with(handle, keygroup, now_ms, token, used, sets, count);
}

/* A key group goes on with other key sets, at most 16, in the order of their tokens and moments, the first from 0. The keys in use stay until
 * one with a higher token comes to its moment: then uap_publisher_next begins with key frames. A ring whose tokens are all lower than the one
 * in use is taken too (UAP_OK), and then the keys in use stay for good: uap_publisher_standing tells the token. */
static inline uint32_t uap_publisher_renew(struct uap_handle *handle, uint32_t keygroup, const struct uap_key_set *sets, size_t count) {
    if (handle == NULL || sets == NULL) return UAP_NULL;
    return uapubsub_publisher_renew(handle, keygroup, sets, count);
}

/* ---- what a device stores
 *
 * No token and number may come twice, nor over restarts. So a device stores bytes before it sends, and goes on after them:
 *
 *     at the start:    before the first uap_publisher_next: uap_publisher_renew with the ring that it had last, by the moments of this clock;
 *                      uap_publisher_restore with the bytes that were stored last, before any save; then save, store and tell
 *     in the loop:     save, store and tell where uap_publisher_must_store says UAP_OK, where uap_publisher_next says UAP_UNSTORED, and each
 *                      4,096 datagrams
 *     save and store:  uap_publisher_save; write the bytes, and have the disk keep them (uap_posix_write); only if that went well
 *                      uap_publisher_stored, before another save
 *
 * Where uap_publisher_restore answers another status than UAP_OK, or the file is there and can't be read, what was used isn't known. Then save
 * nothing and send nothing of secured groups, until the right bytes are restored, or the key groups have later tokens than those used before.
 *
 * A program that never saves keeps its numbers itself: uap_publisher_standing, uap_publisher_resume. */

/* Lays UAP_STATE_BYTES bytes to store at the front of the buffer, and `length` is how many: of each key group the token in use and a number
 * `ahead` after the one used last, or what is in store where that is later; of each writer a message number as far ahead, 8,192 at most. From now
 * on a datagram of a secured group is given only where the numbers that its key group used are in store; else it waits (UAP_UNSTORED). As long as
 * one waits no group has a turn, also none without keys, and uap_publisher_due tells `now_ms`. Before the first save nothing is withheld. Each
 * restart passes `ahead` numbers over. Let it be 8,192 at most or 32,768 at least, and twice what is sent while the disk works. UAP_ROOM: the
 * buffer is too short. */
static inline uint32_t uap_publisher_save(struct uap_handle *handle, uint32_t ahead, void *buffer, size_t room, size_t *length) {
    if (handle == NULL || buffer == NULL || length == NULL) return UAP_NULL;
    return uapubsub_publisher_save(handle, ahead, UAP_BYTES(buffer), room, length);
}

/* The bytes that uap_publisher_save laid last are in store: written, and kept by the disk. Call it before another save: it tells of the last
 * bytes alone. Where nothing was saved nothing changes. */
static inline uint32_t uap_publisher_stored(struct uap_handle *handle) {
    if (handle == NULL) return UAP_NULL;
    return uapubsub_publisher_stored(handle);
}

/* UAP_OK: save and store now. A key group's numbers aren't all in store, or less than half of what was saved ahead is left, or nothing is in
 * store. UAP_NONE: there is no need, as always where there is no key group. Message numbers don't count: save each 4,096 datagrams too. So a
 * device that saves as soon as it has to doesn't wait for its store, but for a datagram that is made as a token changes: come at the key's moment
 * (uap_publisher_due), and save then. */
static inline uint32_t uap_publisher_must_store(struct uap_handle *handle) {
    if (handle == NULL) return UAP_NULL;
    return uapubsub_publisher_must_store(handle);
}

/* Goes on after stored bytes, before the first uap_publisher_next: what was made before isn't after the stored numbers, and is sent all the same.
 * Each key group with the last of its key sets whose moment has come, after the stored number where that is the
 * stored token; each writer, of a group without a turn, at its stored message number. Until the next uap_publisher_stored nothing more is given of
 * secured groups. UAP_DAMAGED: they aren't bytes of uap_publisher_save. UAP_OTHER_CONFIG: they are of a configuration with another PublisherId, or
 * other groups, writers, key groups or data sets. UAP_LATER_TOKEN: they have a later token of a key group than its key sets have at this moment:
 * give it the last ring first (uap_publisher_renew), or the clock was set back. With each of these nothing changes. */
static inline uint32_t uap_publisher_restore(struct uap_handle *handle, uint64_t now_ms, const void *bytes, size_t length) {
    if (handle == NULL || bytes == NULL) return UAP_NULL;
    return uapubsub_publisher_restore(handle, now_ms, UAP_TEXT(bytes), length);
}

/* What stored bytes say: the token of a key group, the number under it that a restart goes on after, and the message number at which a writer
 * begins then. Where the configuration has no such key group or writer nothing is said of it. UAP_DAMAGED, as above. UAP_INDEX: it is past the 4
 * key groups, 4 groups and 16 writers of a configuration. */
static inline uint32_t uap_state_token(const void *bytes, size_t length, uint32_t keygroup, uint32_t *token) {
    if (bytes == NULL || token == NULL) return UAP_NULL;
    return uapubsub_state_token(UAP_TEXT(bytes), length, keygroup, token);
}

static inline uint32_t uap_state_used(const void *bytes, size_t length, uint32_t keygroup, uint32_t *used) {
    if (bytes == NULL || used == NULL) return UAP_NULL;
    return uapubsub_state_used(UAP_TEXT(bytes), length, keygroup, used);
}

static inline uint32_t uap_state_message(const void *bytes, size_t length, uint32_t group, uint32_t writer, uint16_t *number) {
    if (bytes == NULL || number == NULL) return UAP_NULL;
    return uapubsub_state_message(UAP_TEXT(bytes), length, group, writer, number);
}

/* ---- the subscriber */

/* Opens a subscriber of a configuration. It takes all memory that it ever needs. */
static inline uint32_t uap_subscriber_open(struct uap_handle *handle, const void *text, size_t length) {
    if (handle == NULL || text == NULL) return UAP_NULL;
    return uapubsub_subscriber_open(handle, UAP_TEXT(text), length);
}

/* A datagram came to one read group, which may decrypt its bytes in place. uap_subscriber_take gives it to all. */
static inline uint32_t uap_subscriber_datagram(struct uap_handle *handle, uint32_t group, uint64_t now_ms, void *bytes, size_t length, struct uap_taken *taken) {
    if (handle == NULL || bytes == NULL || taken == NULL) return UAP_NULL;
    return uapubsub_subscriber_datagram(handle, group, now_ms, UAP_BYTES(bytes), length, taken);
}

/* A datagram came to all read groups: to each, in their order, as uap_subscriber_datagram has it with a copy of its own. The bytes stay. The header
 * is read once, and a copy is made only for those that don't refuse the datagram by it. UAP_ROOM: it has more than UAP_MOST_DATAGRAM_BYTES. */
static inline uint32_t uap_subscriber_take(struct uap_handle *handle, uint64_t now_ms, const void *bytes, size_t length, struct uap_takings *takings) {
    if (handle == NULL || bytes == NULL || takings == NULL) return UAP_NULL;
    return uapubsub_subscriber_take(handle, now_ms, UAP_TEXT(bytes), length, takings);
}

/* Time goes on: a reader whose timeout has passed holds no row. */
static inline uint32_t uap_subscriber_expire(struct uap_handle *handle, uint64_t now_ms) {
    if (handle == NULL) return UAP_NULL;
    return uapubsub_subscriber_expire(handle, now_ms);
}

/* Gets the word of a scalar field of the row that a reader holds, as uap_set_word takes it; UAP_NONE where it holds none. */
static inline uint32_t uap_get_word(struct uap_handle *handle, uint32_t group, uint32_t reader, uint32_t field, uint32_t kind, uint64_t *word) {
    if (handle == NULL || word == NULL) return UAP_NULL;
    return uapubsub_get_word(handle, group, reader, field, kind, word);
}

/* The same for each kind, with its own type: uap_get_bool(handle, group, reader, field, &value) and so on. */
#define UAP_GETS(name, type, width, kind)                                                                                                 \
    static inline uint32_t uap_get_##name(struct uap_handle *handle, uint32_t group, uint32_t reader, uint32_t field, type *value) {       \
        uint64_t word = 0;                                                                                                                \
        if (value == NULL) return UAP_NULL;                                                                                               \
        uint32_t status = uap_get_word(handle, group, reader, field, kind, &word);                                                        \
        if (status == UAP_OK) *value = UAP_CAST(type, UAP_CAST(width, word));                                                             \
        return status;                                                                                                                    \
    }
UAP_GETS(bool, bool, uint8_t, UAP_BOOLEAN)
UAP_GETS(i8, int8_t, uint8_t, UAP_SBYTE)
UAP_GETS(u8, uint8_t, uint8_t, UAP_BYTE)
UAP_GETS(i16, int16_t, uint16_t, UAP_INT16)
UAP_GETS(u16, uint16_t, uint16_t, UAP_UINT16)
UAP_GETS(i32, int32_t, uint32_t, UAP_INT32)
UAP_GETS(u32, uint32_t, uint32_t, UAP_UINT32)
UAP_GETS(i64, int64_t, uint64_t, UAP_INT64)
UAP_GETS(u64, uint64_t, uint64_t, UAP_UINT64)
UAP_GETS(f32_bits, uint32_t, uint32_t, UAP_FLOAT)
UAP_GETS(f64_bits, uint64_t, uint64_t, UAP_DOUBLE)
UAP_GETS(date_time, int64_t, uint64_t, UAP_DATE_TIME)
UAP_GETS(status_code, uint32_t, uint32_t, UAP_STATUS_CODE)
#undef UAP_GETS

static inline uint32_t uap_get_f32(struct uap_handle *handle, uint32_t group, uint32_t reader, uint32_t field, float *value) {
    uint32_t bits = 0;
    if (value == NULL) return UAP_NULL;
    uint32_t status = uap_get_f32_bits(handle, group, reader, field, &bits);
    if (status == UAP_OK) memcpy(value, &bits, sizeof bits);
    return status;
}

static inline uint32_t uap_get_f64(struct uap_handle *handle, uint32_t group, uint32_t reader, uint32_t field, double *value) {
    uint64_t bits = 0;
    if (value == NULL) return UAP_NULL;
    uint32_t status = uap_get_f64_bits(handle, group, reader, field, &bits);
    if (status == UAP_OK) memcpy(value, &bits, sizeof bits);
    return status;
}

/* Gets a String, without a zero at its end. With UAP_ROOM it has `length` bytes. */
static inline uint32_t uap_get_text(struct uap_handle *handle, uint32_t group, uint32_t reader, uint32_t field, char *buffer, size_t room,
                                   size_t *length) {
    if (handle == NULL || buffer == NULL || length == NULL) return UAP_NULL;
    return uapubsub_get_text(handle, group, reader, field, UAP_BYTES(buffer), room, length);
}

static inline uint32_t uap_get_bytes(struct uap_handle *handle, uint32_t group, uint32_t reader, uint32_t field, void *buffer, size_t room,
                                    size_t *length) {
    if (handle == NULL || buffer == NULL || length == NULL) return UAP_NULL;
    return uapubsub_get_bytes(handle, group, reader, field, UAP_BYTES(buffer), room, length);
}

static inline uint32_t uap_get_guid(struct uap_handle *handle, uint32_t group, uint32_t reader, uint32_t field, struct uap_guid *guid) {
    if (handle == NULL || guid == NULL) return UAP_NULL;
    return uapubsub_get_guid(handle, group, reader, field, guid);
}

/* Gets the status of a field of the row that a reader holds, a StatusCode (0 is Good). */
static inline uint32_t uap_get_field_status(struct uap_handle *handle, uint32_t group, uint32_t reader, uint32_t field, uint32_t *status) {
    if (handle == NULL || status == NULL) return UAP_NULL;
    return uapubsub_get_field_status(handle, group, reader, field, status);
}

/* Switches a reader on or off, by the indexes of its read group and of the reader in it. At first all are on. One that is switched off
 * lets its row go, and waits (UAP_WHY_RESTARTED). */
static inline uint32_t uap_reader_enable(struct uap_handle *handle, uint32_t group, uint32_t reader) {
    if (handle == NULL) return UAP_NULL;
    return uapubsub_reader_enable(handle, group, reader);
}

static inline uint32_t uap_reader_disable(struct uap_handle *handle, uint32_t group, uint32_t reader) {
    if (handle == NULL) return UAP_NULL;
    return uapubsub_reader_disable(handle, group, reader);
}

/* A read group goes on with other key sets, as `uap_publisher_renew` has them, at once: what is still sent under a token that they lack is
 * refused. */
static inline uint32_t uap_subscriber_renew(struct uap_handle *handle, uint32_t group, const struct uap_key_set *sets, size_t count) {
    if (handle == NULL || sets == NULL) return UAP_NULL;
    return uapubsub_subscriber_renew(handle, group, sets, count);
}

/* Why a reader waits (UAP_NONE), or waited before the row that it holds (UAP_OK). */
static inline uint32_t uap_reader_why(struct uap_handle *handle, uint32_t group, uint32_t reader, uint32_t *why) {
    if (handle == NULL || why == NULL) return UAP_NULL;
    return uapubsub_reader_why(handle, group, reader, why);
}

/* The number of the message that the held row was last made of. UAP_NONE where no row is held, or the reader goes by no numbers. */
static inline uint32_t uap_reader_number(struct uap_handle *handle, uint32_t group, uint32_t reader, uint16_t *number) {
    if (handle == NULL || number == NULL) return UAP_NULL;
    return uapubsub_reader_number(handle, group, reader, number);
}

/* How many milliseconds ago the row that a reader holds was confirmed: by the last message that it took with none missing before it, a
 * keep-alive too; of a reader without numbering by the last key frame alone. UAP_NONE where it holds none. A machine rests on this, and not on
 * timeouts: where key frames are lost, each other message begins the timeout anew. It supposes one publisher's datagrams of one life and a
 * clock that is never set back, counts from when a datagram was handed over, and says nothing of statuses (docs/C.md). */
static inline uint32_t uap_reader_age(struct uap_handle *handle, uint32_t group, uint32_t reader, uint64_t now_ms, uint64_t *age_ms) {
    if (handle == NULL || age_ms == NULL) return UAP_NULL;
    return uapubsub_reader_age(handle, group, reader, now_ms, age_ms);
}

/* UAP_OK: the reader holds a row that was confirmed at most `bound_ms` ago. UAP_STALE: it holds an older one. UAP_NONE: it holds none. */
static inline uint32_t uap_reader_is_fresh(struct uap_handle *handle, uint32_t group, uint32_t reader, uint64_t now_ms, uint64_t bound_ms) {
    if (handle == NULL) return UAP_NULL;
    return uapubsub_reader_is_fresh(handle, group, reader, now_ms, bound_ms);
}

/* The first moment from `now_ms` on at which a reader's timeout passes: call uap_subscriber_expire then. UAP_NONE: never. */
static inline uint32_t uap_subscriber_due(struct uap_handle *handle, uint64_t now_ms, uint64_t *moment_ms) {
    if (handle == NULL || moment_ms == NULL) return UAP_NULL;
    return uapubsub_subscriber_due(handle, now_ms, moment_ms);
}

/* Why a reader isn't read: its parts that couldn't be read, what it passed over, and what its read group refused. */
static inline uint32_t uap_reader_last_fault(struct uap_handle *handle, uint32_t group, uint32_t reader, struct uap_fault *fault) {
    if (handle == NULL || fault == NULL) return UAP_NULL;
    return uapubsub_reader_last_fault(handle, group, reader, fault);
}

static inline uint32_t uap_reader_passed(struct uap_handle *handle, uint32_t group, uint32_t reader, struct uap_passed *passed) {
    if (handle == NULL || passed == NULL) return UAP_NULL;
    return uapubsub_reader_passed(handle, group, reader, passed);
}

static inline uint32_t uap_read_group_refused(struct uap_handle *handle, uint32_t group, struct uap_refused *refused) {
    if (handle == NULL || refused == NULL) return UAP_NULL;
    return uapubsub_read_group_refused(handle, group, refused);
}

/* What a reader received: how many messages it lost, how often it stored a row, and when it took the last message. */
static inline uint32_t uap_reader_received(struct uap_handle *handle, uint32_t group, uint32_t reader, struct uap_received *received) {
    if (handle == NULL || received == NULL) return UAP_NULL;
    return uapubsub_reader_received(handle, group, reader, received);
}

/* The token and the number of the last datagram that a read group accepted under a security header. UAP_NONE: it accepted none, as an
 * unsecured one does. */
static inline uint32_t uap_read_group_last_taken(struct uap_handle *handle, uint32_t group, struct uap_last_taken *taken) {
    if (handle == NULL || taken == NULL) return UAP_NULL;
    return uapubsub_read_group_last_taken(handle, group, taken);
}

/* A read group takes datagrams of this NetworkMessageNumber alone, of any where it is 0, as at first. Others are UAP_NOT_OURS. It is for a
 * fixed layout whose publisher sends several NetworkMessages in a cycle: without it a reader takes any of them at its offset. */
static inline uint32_t uap_read_group_only(struct uap_handle *handle, uint32_t group, uint16_t number) {
    if (handle == NULL) return UAP_NULL;
    return uapubsub_read_group_only(handle, group, number);
}

/* All datagrams that are due, laid one behind another into `buffer`, with their lengths, at most `most`. Whatever the status but UAP_NULL,
 * `count` of them were laid, and are to be sent. UAP_NONE: that was all. UAP_SPENT: that was all of the groups that may have a turn. UAP_UNSTORED:
 * the next one waits for the store.
 * UAP_ROOM: there were `most`, or the next one has no room behind them: send these, and call again. UAP_ROOM with none: the buffer is too
 * short for the next one, or `most` is 0. */
static inline uint32_t uap_publisher_tick(struct uap_handle *handle, uint64_t now_ms, void *buffer, size_t room, size_t *lengths, size_t most,
                                         size_t *count) {
    if (handle == NULL || buffer == NULL || lengths == NULL || count == NULL) return UAP_NULL;
    size_t used = 0, length;
    for (*count = 0; *count < most; (*count)++) {
        uint32_t status = uap_publisher_next(handle, now_ms, UAP_BYTES(buffer) + used, room - used, &length);
        if (status != UAP_OK) return status;
        lengths[*count] = length;
        used += length;
    }
    return UAP_ROOM;
}

#undef UAP_CAST
#undef UAP_BYTES
#undef UAP_TEXT

#ifdef __cplusplus
}
#endif

#endif
