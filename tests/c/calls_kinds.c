// The kinds of fields: each call that sets or gets a field does so of its own kind, and is answered UAP_MISFIT of each other one.
#include "calls.h"

// The kinds, each of the field with its index.
enum { BOOLEAN, SBYTE, BYTE, INT16, UINT16, INT32, UINT32, INT64, UINT64, FLOAT, DOUBLE, STRING, DATE_TIME, GUID, BYTE_STRING, STATUS_CODE, KINDS };

enum { CAP = 12, MOST_BYTES = 256, ROOM = 16 };

#define FIELD(name, kind) "[[dataset.field]]\nname = \"" name "\"\nkind = \"" kind "\"\n"

static const char kinds[] =
    "[publisher]\nid = \"u8:9\"\n"
    "[[dataset]]\nname = \"set\"\n"
    FIELD("a", "Boolean") FIELD("b", "SByte") FIELD("c", "Byte") FIELD("d", "Int16") FIELD("e", "UInt16") FIELD("f", "Int32")
    FIELD("g", "UInt32") FIELD("h", "Int64") FIELD("i", "UInt64") FIELD("j", "Float") FIELD("k", "Double") FIELD("l", "String") "cap = 12\n"
    FIELD("m", "DateTime") FIELD("n", "Guid") FIELD("o", "ByteString") "cap = 12\n" FIELD("p", "StatusCode")
    "[[group]]\nname = \"group\"\nid = 1\ninterval = 10\n"
    "[[group.writer]]\nname = \"writer\"\nid = 1\ndataset = \"set\"\nkey_frame_count = 1000\n"
    "[[readgroup]]\nname = \"peer\"\npublisher = \"u8:9\"\ngroup = 1\n"
    "[[readgroup.reader]]\nname = \"reader\"\nwriter = 1\ndataset = \"set\"\n";

// A value of each kind.
struct values {
    bool boolean;
    int8_t i8;
    uint8_t u8;
    int16_t i16;
    uint16_t u16;
    int32_t i32;
    uint32_t u32;
    int64_t i64;
    uint64_t u64;
    float f32;
    double f64;
    const char *text;
    int64_t date_time;
    struct uap_guid guid;
    const uint8_t *bytes;
    size_t length;
    uint32_t status_code;
};

// The values of the kinds that differ in their numbers, and their ends.
static const struct values samples[] = {
    {
        true, INT8_MIN, UINT8_MAX, INT16_MIN, UINT16_MAX, INT32_MIN, UINT32_MAX, INT64_MIN, UINT64_MAX, -2.5f, 1e300, "gr\xc3\xbcn", -1,
        {{0, 1, 2, 3, 4, 5, 6, 7, 8, 9, 10, 11, 12, 13, 14, 255}}, (const uint8_t[]){0, 0xff, 0x80, 0}, 4, 0x80310000u,
    },
    {
        false, INT8_MAX, 1, INT16_MAX, 2, INT32_MAX, 3, INT64_MAX, 4, 0.1f, -0.1, "", 116444736000000000, {{9}},
        (const uint8_t[]){1, 2, 3, 4, 5, 6, 7, 8, 9, 10, 11, 12}, 12, 5,
    },
    {
        true, 1, 2, 3, 4, 5, 6, 7, 8, 9, 10, "twelve bytes", 12, {{13, 14}}, (const uint8_t[]){0}, 0, 15,
    },
};

// Sets the field as one of this kind, whichever it has.
static uint32_t set_as(struct uap_handle *publisher, uint32_t field, int kind, const struct values *values) {
    switch (kind) {
    case BOOLEAN: return uap_set_bool(publisher, 0, field, values->boolean);
    case SBYTE: return uap_set_i8(publisher, 0, field, values->i8);
    case BYTE: return uap_set_u8(publisher, 0, field, values->u8);
    case INT16: return uap_set_i16(publisher, 0, field, values->i16);
    case UINT16: return uap_set_u16(publisher, 0, field, values->u16);
    case INT32: return uap_set_i32(publisher, 0, field, values->i32);
    case UINT32: return uap_set_u32(publisher, 0, field, values->u32);
    case INT64: return uap_set_i64(publisher, 0, field, values->i64);
    case UINT64: return uap_set_u64(publisher, 0, field, values->u64);
    case FLOAT: return uap_set_f32(publisher, 0, field, values->f32);
    case DOUBLE: return uap_set_f64(publisher, 0, field, values->f64);
    case STRING: return uap_set_text(publisher, 0, field, values->text);
    case DATE_TIME: return uap_set_date_time(publisher, 0, field, values->date_time);
    case GUID: return uap_set_guid(publisher, 0, field, &values->guid);
    case BYTE_STRING: return uap_set_bytes(publisher, 0, field, values->bytes, values->length);
    default: return uap_set_status_code(publisher, 0, field, values->status_code);
    }
}

// Where the status is UAP_OK the value has to be the one that was set, else the one that stood there.
#define GET(type, call, expected, other)                                                    \
    do {                                                                                    \
        type held = other;                                                                  \
        status = call(subscriber, 0, 0, field, &held);                                      \
        DEMAND(held == (status == UAP_OK ? (expected) : (type)(other)));                    \
    } while (0)

// Gets the field as one of this kind, whichever it has.
static uint32_t get_as(struct uap_handle *subscriber, uint32_t field, int kind, const struct values *values) {
    uint32_t status = UAP_NULL;
    struct uap_guid guid = {{0}};
    uint8_t bytes[ROOM];
    char text[ROOM];
    size_t length = 0;
    switch (kind) {
    case BOOLEAN: GET(bool, uap_get_bool, values->boolean, !values->boolean); break;
    case SBYTE: GET(int8_t, uap_get_i8, values->i8, 99); break;
    case BYTE: GET(uint8_t, uap_get_u8, values->u8, 99); break;
    case INT16: GET(int16_t, uap_get_i16, values->i16, 99); break;
    case UINT16: GET(uint16_t, uap_get_u16, values->u16, 99); break;
    case INT32: GET(int32_t, uap_get_i32, values->i32, 99); break;
    case UINT32: GET(uint32_t, uap_get_u32, values->u32, 99); break;
    case INT64: GET(int64_t, uap_get_i64, values->i64, 99); break;
    case UINT64: GET(uint64_t, uap_get_u64, values->u64, 99); break;
    case FLOAT: GET(float, uap_get_f32, values->f32, 99); break;
    case DOUBLE: GET(double, uap_get_f64, values->f64, 99); break;
    case DATE_TIME: GET(int64_t, uap_get_date_time, values->date_time, 99); break;
    case STATUS_CODE: GET(uint32_t, uap_get_status_code, values->status_code, 99); break;
    case STRING:
        status = uap_get_text(subscriber, 0, 0, field, text, sizeof text, &length);
        DEMAND(status != UAP_OK || (length == strlen(values->text) && memcmp(text, values->text, length) == 0));
        break;
    case BYTE_STRING:
        status = uap_get_bytes(subscriber, 0, 0, field, bytes, sizeof bytes, &length);
        DEMAND(status != UAP_OK || (length == values->length && memcmp(bytes, values->bytes, length) == 0));
        break;
    case GUID:
        status = uap_get_guid(subscriber, 0, 0, field, &guid);
        DEMAND(status != UAP_OK || memcmp(&guid, &values->guid, sizeof guid) == 0);
        break;
    }
    return status;
}

// What is set is read back. A field that is set or got as one of another kind keeps its value: nothing differs, so nothing is sent.
static void check_values(struct uap_handle *publisher, struct uap_handle *subscriber, uint64_t now, const struct values *values,
                         const struct values *others) {
    struct datagram datagram;
    for (uint32_t field = 0; field < KINDS; field++) DEMAND(set_as(publisher, field, field, values) == UAP_OK);
    DEMAND(next(publisher, now, &datagram) == UAP_OK && takes(subscriber, 0, now, &datagram));
    for (uint32_t field = 0; field < KINDS; field++)
        for (int kind = 0; kind < KINDS; kind++) {
            DEMAND((uint32_t)kind == field || set_as(publisher, field, kind, others) == UAP_MISFIT);
            DEMAND(get_as(subscriber, field, kind, values) == ((uint32_t)kind == field ? UAP_OK : UAP_MISFIT));
        }
    DEMAND(next(publisher, now + 10, &datagram) == UAP_NONE);
}

// Values that a field of the kind can't have, and bits of floating numbers that no number has.
static void check_bounds(struct uap_handle *publisher, struct uap_handle *subscriber, uint64_t now) {
    static char long_text[MOST_BYTES + 2];
    struct datagram datagram;
    uint32_t bits = 0;
    uint64_t long_bits = 0;
    memset(long_text, 'x', MOST_BYTES + 1);
    DEMAND(uap_set_text(publisher, 0, STRING, long_text) == UAP_BAD_TEXT && uap_set_text(publisher, 0, STRING, "\xc3") == UAP_BAD_TEXT);
    DEMAND(uap_set_text(publisher, 0, STRING, long_text + 1) == UAP_MISFIT);
    DEMAND(uap_set_text(publisher, 0, STRING, long_text + MOST_BYTES - CAP) == UAP_MISFIT);
    DEMAND(uap_set_bytes(publisher, 0, BYTE_STRING, long_text, CAP + 1) == UAP_MISFIT);
    DEMAND(uap_set_bytes(publisher, 0, BYTE_STRING, long_text, MOST_BYTES) == UAP_MISFIT);
    DEMAND(uap_set_word(publisher, 0, BOOLEAN, UAP_BOOLEAN, 2) == UAP_MISFIT && uap_set_word(publisher, 0, BYTE, UAP_BYTE, 256) == UAP_MISFIT);
    DEMAND(uap_set_word(publisher, 0, STRING, UAP_STRING, 0) == UAP_MISFIT && uap_set_word(publisher, 0, KINDS, UAP_BYTE, 1) == UAP_INDEX);
    DEMAND(uap_set_word(publisher, 0, BYTE, 16, 1) == UAP_NO_KIND && uap_set_word(publisher, 9, 9, 256 + UAP_BYTE, 1) == UAP_NO_KIND);
    DEMAND(uap_get_word(subscriber, 0, 0, BYTE, 16, &long_bits) == UAP_NO_KIND && uap_get_word(subscriber, 9, 9, 9, 0, &long_bits) == UAP_NO_KIND);
    DEMAND(uap_get_word(subscriber, 0, 0, STRING, UAP_STRING, &long_bits) == UAP_MISFIT && uap_get_word(subscriber, 0, 9, BYTE, UAP_BYTE, &long_bits) == UAP_INDEX);
    DEMAND(uap_set_field_status(publisher, 0, INT32, 0x80000000u) == UAP_MISFIT);
    DEMAND(next(publisher, now, &datagram) == UAP_NONE);
    DEMAND(uap_set_f32_bits(publisher, 0, FLOAT, 0x7fc00001u) == UAP_OK && uap_set_f64_bits(publisher, 0, DOUBLE, 0xfff0000000000001u) == UAP_OK);
    DEMAND(next(publisher, now + 10, &datagram) == UAP_OK && takes(subscriber, 0, now + 10, &datagram));
    DEMAND(uap_get_f32_bits(subscriber, 0, 0, FLOAT, &bits) == UAP_OK && bits == 0x7fc00001u);
    DEMAND(uap_get_f64_bits(subscriber, 0, 0, DOUBLE, &long_bits) == UAP_OK && long_bits == 0xfff0000000000001u);
}

// A String and a ByteString in a buffer that is too short, or just long enough.
static void check_short_buffers(struct uap_handle *publisher, struct uap_handle *subscriber, uint64_t now) {
    static const uint8_t bytes[] = {9, 0, 8};
    struct datagram datagram;
    char text[ROOM] = "as it was";
    size_t length = 0;
    DEMAND(uap_set_text(publisher, 0, STRING, "four") == UAP_OK && uap_set_bytes(publisher, 0, BYTE_STRING, bytes, 3) == UAP_OK);
    DEMAND(next(publisher, now, &datagram) == UAP_OK && takes(subscriber, 0, now, &datagram));
    DEMAND(uap_get_text(subscriber, 0, 0, STRING, text, 3, &length) == UAP_ROOM && length == 4);
    DEMAND(uap_get_bytes(subscriber, 0, 0, BYTE_STRING, text, 2, &length) == UAP_ROOM && length == 3);
    DEMAND(strcmp(text, "as it was") == 0);
    DEMAND(uap_get_text(subscriber, 0, 0, STRING, text, 4, &length) == UAP_OK && length == 4 && strcmp(text, "fourt was") == 0);
    DEMAND(uap_get_bytes(subscriber, 0, 0, BYTE_STRING, text, 3, &length) == UAP_OK && length == 3 && memcmp(text, bytes, 3) == 0 && text[3] == 'r');
}

// A publisher begins with zeros and empty texts.
static void check_opening(struct uap_handle *publisher, struct uap_handle *subscriber, uint64_t now) {
    const struct values opening = {.text = "", .bytes = (const uint8_t[]){0}};
    struct datagram datagram;
    uint32_t status = 1;
    DEMAND(next(publisher, now, &datagram) == UAP_OK && takes(subscriber, 0, now, &datagram));
    for (uint32_t field = 0; field < KINDS; field++) {
        DEMAND(get_as(subscriber, field, field, &opening) == UAP_OK);
        DEMAND(uap_get_field_status(subscriber, 0, 0, field, &status) == UAP_OK && status == 0);
    }
}

void check_kinds(void) {
    struct uap_handle publisher = UAP_CLOSED_HANDLE, subscriber = UAP_CLOSED_HANDLE;
    open_sides(&publisher, &subscriber, kinds);
    check_opening(&publisher, &subscriber, 10);
    check_values(&publisher, &subscriber, 20, &samples[0], &samples[1]);
    check_values(&publisher, &subscriber, 40, &samples[1], &samples[2]);
    check_values(&publisher, &subscriber, 60, &samples[2], &samples[0]);
    check_bounds(&publisher, &subscriber, 80);
    check_short_buffers(&publisher, &subscriber, 100);
    close_sides(&publisher, &subscriber);
}
