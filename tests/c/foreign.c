// Plays the table of models/foreign through a subscriber and a publisher: each datagram gets the answer that stands after it, each reader
// holds the row, or waits for the reason, that the table tells, and each datagram that a publisher gives is the table's. models/foreign/table.py
// has the form of a line. Files of configurations are named from the folder that the program runs in.
#include "calls.h"
#include "../../examples/c/pulled.h"

enum { LINE_BYTES = 1 << 14, MOST_WORDS = 64, TEXT_BYTES = 1 << 16 };

static const char *const refusals[] = {
    [UAP_HEADER_SHORT] = "HEADER_SHORT", [UAP_VERSION] = "VERSION", [UAP_DISCOVERY] = "DISCOVERY", [UAP_PUBLISHER_TYPE] = "PUBLISHER_TYPE",
    [UAP_RESERVED] = "RESERVED", [UAP_PUBLISHER_ID] = "PUBLISHER_ID", [UAP_NOT_OURS] = "NOT_OURS", [UAP_NO_IDS] = "NO_IDS",
    [UAP_SIZES] = "SIZES", [UAP_MODE] = "MODE", [UAP_FOOTER] = "FOOTER", [UAP_KEY_RESET] = "KEY_RESET", [UAP_NONCE] = "NONCE",
    [UAP_NO_SIGNATURE] = "NO_SIGNATURE", [UAP_UNKNOWN_TOKEN] = "UNKNOWN_TOKEN", [UAP_OLD_TOKEN] = "OLD_TOKEN", [UAP_SIGNATURE] = "SIGNATURE",
    [UAP_REPEATED] = "REPEATED", [UAP_TOO_OLD] = "TOO_OLD",
};

static const char *const reasons[] = {
    [UAP_WHY_START] = "start", [UAP_WHY_GAP] = "gap", [UAP_WHY_TIMEOUT] = "timeout", [UAP_WHY_NEW_TOKEN] = "newtoken",
    [UAP_WHY_JUMP] = "jump", [UAP_WHY_RESTARTED] = "restarted",
};

static const struct {
    const char *name;
    uint32_t fault;
} faults[] = {
    {"-", UAP_FAULT_NONE}, {"Short", UAP_FAULT_SHORT}, {"BadEncoding", UAP_FAULT_ENCODING}, {"KindOut", UAP_FAULT_KIND},
    {"BadValue", UAP_FAULT_VALUE}, {"BadIndex", UAP_FAULT_INDEX}, {"WrongCount", UAP_FAULT_COUNT}, {"Trailing", UAP_FAULT_TRAILING},
    {"NotValid", UAP_FAULT_NOT_VALID}, {"EventOut", UAP_FAULT_EVENT}, {"ReservedBits", UAP_FAULT_RESERVED}, {"ChunkShort", UAP_FAULT_CHUNK},
    {"ChunkBadLength", UAP_FAULT_CHUNK_LENGTH}, {"TooLong", UAP_FAULT_TOO_LONG}, {"BadRange", UAP_FAULT_RANGE},
    {"Differs", UAP_FAULT_DIFFERS}, {"Missing", UAP_FAULT_MISSING},
};

static const struct {
    const char *name;
    uint32_t type;
} id_types[] = {{"-", 0}, {"Byte", UAP_BYTE}, {"UInt16", UAP_UINT16}, {"UInt32", UAP_UINT32}, {"UInt64", UAP_UINT64}, {"String", UAP_STRING}};

static struct uap_handle subscriber = UAP_CLOSED_HANDLE, publisher = UAP_CLOSED_HANDLE;
static unsigned line_number, datagrams, rows, notes, wrong;

// What the line wants, and what is so.
static void differs(const char *wanted, const char *got) {
    fprintf(stderr, "foreign: line %u: %s, in place of %s\n", line_number, got, wanted);
    wrong++;
}

static void fails(const char *text) {
    fprintf(stderr, "foreign: line %u: %s\n", line_number, text);
    exit(1);
}

static uint8_t index_of(const char *word) {
    return (uint8_t)strtoul(word, NULL, 10);
}

static uint64_t little_endian_word(const struct datagram *bytes) {
    uint64_t word = 0;
    for (size_t at = bytes->length; at-- > 0;) word = word << 8 | bytes->bytes[at];
    return word;
}

// ---- values: KIND=BYTES, and !STATUS after it

struct value {
    char kind[16];
    struct datagram bytes;
    uint32_t status;
};

static struct value value_of(const char *word) {
    struct value value = {.status = 0};
    const char *equals = strchr(word, '='), *status = strchr(word, '!');
    if (equals == NULL || (size_t)(equals - word) >= sizeof value.kind) fails("a value without a kind");
    memcpy(value.kind, word, (size_t)(equals - word));
    value.bytes = spelled(equals + 1);
    if (status != NULL) value.status = (uint32_t)strtoul(status + 1, NULL, 16);
    return value;
}

// The scalars: a field's bytes on the wire, which it has or is given.
#define SCALARS(x)                                                                                                                          \
    x(Boolean, bool, bool) x(SByte, i8, int8_t) x(Byte, u8, uint8_t) x(Int16, i16, int16_t) x(UInt16, u16, uint16_t) x(Int32, i32, int32_t) \
    x(UInt32, u32, uint32_t) x(Int64, i64, int64_t) x(UInt64, u64, uint64_t) x(Float, f32_bits, uint32_t) x(Double, f64_bits, uint64_t)     \
    x(DateTime, date_time, int64_t) x(StatusCode, status_code, uint32_t)

static void laid(uint64_t word, size_t count, struct datagram *bytes) {
    for (bytes->length = 0; bytes->length < count; word >>= 8) bytes->bytes[bytes->length++] = (uint8_t)word;
}

// A field as it is held, or false where the call says anything but UAP_OK.
static bool held(uint8_t group, uint8_t reader, uint8_t field, const char *kind, struct datagram *got) {
#define HELD(name, call, type)                                                                        \
    if (strcmp(kind, #name) == 0) {                                                                   \
        type value = 0;                                                                               \
        if (uap_get_##call(&subscriber, group, reader, field, &value) != UAP_OK) return false;        \
        laid((uint64_t)value, sizeof value, got);                                                     \
        return true;                                                                                  \
    }
    SCALARS(HELD)
    if (strcmp(kind, "String") == 0)
        return uap_get_text(&subscriber, group, reader, field, (char *)got->bytes, sizeof got->bytes, &got->length) == UAP_OK;
    if (strcmp(kind, "ByteString") == 0)
        return uap_get_bytes(&subscriber, group, reader, field, got->bytes, sizeof got->bytes, &got->length) == UAP_OK;
    got->length = 16;
    return strcmp(kind, "Guid") == 0 && uap_get_guid(&subscriber, group, reader, field, (struct uap_guid *)got->bytes) == UAP_OK;
}

static bool is_held(uint8_t group, uint8_t reader, uint8_t field, const char *word) {
    struct value value = value_of(word);
    struct datagram got = {.length = 0};
    uint32_t status = 0;
    if (!held(group, reader, field, value.kind, &got) || got.length != value.bytes.length) return false;
    if (memcmp(got.bytes, value.bytes.bytes, got.length) != 0) return false;
    return uap_get_field_status(&subscriber, group, reader, field, &status) == UAP_OK && status == value.status;
}

static void set(uint8_t data_set, uint8_t field, const char *word) {
    struct value value = value_of(word);
    uint64_t bits = little_endian_word(&value.bytes);
    uint32_t status = UAP_MISFIT;
    value.bytes.bytes[value.bytes.length] = 0;
#define SET(name, call, type) \
    if (strcmp(value.kind, #name) == 0) status = uap_set_##call(&publisher, data_set, field, (type)bits);
    SCALARS(SET)
    if (strcmp(value.kind, "String") == 0) status = uap_set_text(&publisher, data_set, field, (const char *)value.bytes.bytes);
    if (status != UAP_OK) fails("a field can't be set");
}

// ---- lines

static void open_side(const char *name, bool is_publisher) {
    static char text[TEXT_BYTES];
    struct uap_handle *handle = is_publisher ? &publisher : &subscriber;
    FILE *file = fopen(name, "rb");
    if (file == NULL) fails("there is no such configuration");
    size_t length = fread(text, 1, sizeof text, file);
    fclose(file);
    uap_close(handle);
    uint32_t status = is_publisher ? uap_publisher_open(handle, text, length) : uap_subscriber_open(handle, text, length);
    if (status != UAP_OK) fails("the configuration isn't opened");
}

static void take(char **words, int count) {
    struct datagram datagram = spelled(words[3]);
    struct uap_taken taken = {0, 0, 0};
    char got[64] = "";
    uint32_t status = give(&subscriber, index_of(words[1]), strtoull(words[2], NULL, 10), &datagram, &taken);
    datagrams++;
    if (status == UAP_OK) snprintf(got, sizeof got, "taken %u %u %u", taken.parts, taken.matched, taken.bad);
    else if (status < sizeof refusals / sizeof *refusals && refusals[status] != NULL) snprintf(got, sizeof got, "%s", refusals[status]);
    else snprintf(got, sizeof got, "the status %u", status);
    char wanted[64];
    if (count == 5) snprintf(wanted, sizeof wanted, "%s", words[4]);
    else if (count == 8) snprintf(wanted, sizeof wanted, "%s %s %s %s", words[4], words[5], words[6], words[7]);
    else fails("an answer of other words");
    if (strcmp(got, wanted) != 0) differs(wanted, got);
}

static void holds(char **words, int count) {
    uint8_t group = index_of(words[1]), reader = index_of(words[2]);
    uint32_t status;
    rows++;
    for (int i = 3; i < count; i++)
        if (!is_held(group, reader, (uint8_t)(i - 3), words[i])) differs(words[i], "another value, or no row");
    if (uap_get_field_status(&subscriber, group, reader, (uint8_t)(count - 3), &status) != UAP_INDEX) differs("the row", "more fields");
}

static void waits_for(char **words) {
    uint8_t group = index_of(words[1]), reader = index_of(words[2]);
    uint32_t why = 99, status = uap_reader_why(&subscriber, group, reader, &why);
    const char *got = status == UAP_OK ? "a row" : status != UAP_NONE || why > UAP_WHY_RESTARTED ? "no reader" : reasons[why];
    rows++;
    if (strcmp(got, words[3]) != 0) differs(words[3], got);
}

// ---- why a peer isn't read

// The word of a fault, as the table has it.
static void fault_word(const struct uap_fault *fault, char *word, size_t room) {
    const char *name = "?";
    for (size_t i = 0; i < sizeof faults / sizeof *faults; i++)
        if (faults[i].fault == fault->fault) name = faults[i].name;
    bool has_got = strcmp(name, "WrongCount") == 0 || strcmp(name, "BadIndex") == 0 || strcmp(name, "TooLong") == 0;
    if (strcmp(name, "BadRange") == 0 || strcmp(name, "Differs") == 0) snprintf(word, room, "%s:%u/%u", name, fault->got, fault->of);
    else if (has_got && fault->of == 0) snprintf(word, room, "%s:%u", name, fault->got);
    else snprintf(word, room, fault->got == 0 && fault->of == 0 ? "%s" : "%s and a number", name);
}

static void noted(char **words) {
    uint8_t group = index_of(words[1]), reader = index_of(words[2]);
    struct uap_fault fault;
    struct uap_passed passed;
    char word[64], wanted[256], got[256], major[16] = "-";
    DEMAND(uap_reader_last_fault(&subscriber, group, reader, &fault) == UAP_OK);
    DEMAND(uap_reader_passed(&subscriber, group, reader, &passed) == UAP_OK);
    fault_word(&fault, word, sizeof word);
    if (strcmp(words[3], "any") == 0 && fault.fault != UAP_FAULT_NONE) snprintf(word, sizeof word, "any");
    if (passed.has_major) snprintf(major, sizeof major, "%u", passed.major);
    snprintf(got, sizeof got, "%s %llu %s %llu %llu %llu", word, (unsigned long long)fault.bad, major, (unsigned long long)passed.other_major,
             (unsigned long long)passed.unnumbered, (unsigned long long)passed.older);
    snprintf(wanted, sizeof wanted, "%s %s %s %s %s %s", words[3], words[4], words[5], words[6], words[7], words[8]);
    notes++;
    if (strcmp(got, wanted) != 0) differs(wanted, got);
}

// A number that is there, after a space; else a dash.
static void add(char *text, size_t room, bool is_there, uint32_t number) {
    size_t used = strlen(text);
    if (is_there) snprintf(text + used, room - used, " %u", number);
    else snprintf(text + used, room - used, number == 0 ? " -" : " a number that isn't there");
}

static void refused(char **words, int count) {
    struct uap_refused told;
    char wanted[256] = "", got[256];
    DEMAND(uap_read_group_refused(&subscriber, index_of(words[1]), &told) == UAP_OK);
    bool is_known = told.status < sizeof refusals / sizeof *refusals && refusals[told.status] != NULL;
    snprintf(got, sizeof got, "%llu %s", (unsigned long long)told.count, is_known ? refusals[told.status] : "no refusal");
    if (told.status == UAP_NOT_OURS) {
        const char *type = "?";
        for (size_t i = 0; i < sizeof id_types / sizeof *id_types; i++)
            if (id_types[i].type == told.publisher_type) type = id_types[i].name;
        size_t used = strlen(got);
        bool has_id = told.publisher_type != 0 && told.publisher_type != UAP_STRING;
        if (has_id) snprintf(got + used, sizeof got - used, " %s:%llu", type, (unsigned long long)told.publisher);
        else snprintf(got + used, sizeof got - used, told.publisher_type == 0 ? " %s" : " %s:-", type);
        add(got, sizeof got, told.has_group, told.group);
        add(got, sizeof got, told.has_version, told.version);
        add(got, sizeof got, told.has_number, told.number);
    }
    if (told.has_token) add(got, sizeof got, true, told.token);
    for (int i = 2; i < count; i++) {
        size_t used = strlen(wanted);
        snprintf(wanted + used, sizeof wanted - used, "%s%s", i > 2 ? " " : "", words[i]);
    }
    notes++;
    if (strcmp(got, wanted) != 0) differs(wanted, got);
}

static void sends(char **words) {
    struct datagram wanted = spelled(words[2]), got;
    uint32_t status = next(&publisher, strtoull(words[1], NULL, 10), &got);
    if (strcmp(words[2], "none") == 0) {
        if (status != UAP_NONE) differs("no datagram", "one");
        return;
    }
    datagrams++;
    if (status != UAP_OK || got.length != wanted.length || memcmp(got.bytes, wanted.bytes, got.length) != 0) {
        char hex[2 * DATAGRAM_BYTES + 1] = "none";
        for (size_t at = 0; status == UAP_OK && at < got.length; at++) sprintf(hex + 2 * at, "%02x", got.bytes[at]);
        differs(words[2], hex);
    }
}

// An answer of GetSecurityKeys: how many key sets are made of it, and a renewal by them.
static void pull(char **words, int count) {
    static struct datagram bytes[MOST_WORDS];
    const uint8_t *keys[MOST_WORDS];
    size_t lengths[MOST_WORDS];
    struct uap_key_set sets[MOST_KEY_SETS];
    struct pulled answer = {.policy_uri = words[6], .first_token = (uint32_t)strtoul(words[7], NULL, 10), .keys = keys, .lengths = lengths,
                            .count = (size_t)(count - 10), .time_to_next_key = strtod(words[8], NULL), .key_lifetime = strtod(words[9], NULL)};
    for (size_t i = 0; i < answer.count; i++) {
        bytes[i] = spelled(words[10 + i]);
        keys[i] = bytes[i].bytes;
        lengths[i] = bytes[i].length;
    }
    size_t made = pulled_sets(&answer, strcmp(words[4], "aes256") == 0, strtoull(words[3], NULL, 10), sets);
    uint32_t status = UAP_OK;
    if (made > 0 && strcmp(words[1], "publisher") == 0) status = uap_publisher_renew(&publisher, index_of(words[2]), sets, made);
    else if (made > 0) status = uap_subscriber_renew(&subscriber, index_of(words[2]), sets, made);
    if (made != strtoul(words[5], NULL, 10)) differs("a number of key sets", "another one");
    if (status != UAP_OK) differs("a renewal", "none");
}

static void line(char **words, int count) {
    const char *call = words[0];
    if (strcmp(call, "subscriber") == 0 && count == 2) open_side(words[1], false);
    else if (strcmp(call, "publisher") == 0 && count == 2) open_side(words[1], true);
    else if (strcmp(call, "take") == 0 && count >= 5) take(words, count);
    else if (strcmp(call, "expire") == 0 && count == 2) DEMAND(uap_subscriber_expire(&subscriber, strtoull(words[1], NULL, 10)) == UAP_OK);
    else if (strcmp(call, "holds") == 0 && count >= 4) holds(words, count);
    else if (strcmp(call, "waits") == 0 && count == 4) waits_for(words);
    else if (strcmp(call, "noted") == 0 && count == 9) noted(words);
    else if (strcmp(call, "refused") == 0 && count >= 4) refused(words, count);
    else if (strcmp(call, "number") == 0 && count == 3)
        DEMAND(uap_read_group_only(&subscriber, index_of(words[1]), (uint16_t)strtoul(words[2], NULL, 10)) == UAP_OK);
    else if (strcmp(call, "set") == 0 && count == 4) set(index_of(words[1]), index_of(words[2]), words[3]);
    else if (strcmp(call, "sends") == 0 && count == 3) sends(words);
    else if (strcmp(call, "pull") == 0 && count >= 10) pull(words, count);
    else fails("a line of another form");
}

int main(void) {
    static char text[LINE_BYTES];
    while (fgets(text, sizeof text, stdin) != NULL) {
        char *words[MOST_WORDS], *word = strtok(text, " \n");
        int count = 0;
        line_number++;
        if (word == NULL || word[0] == '#') continue;
        for (; word != NULL && count < MOST_WORDS; word = strtok(NULL, " \n")) words[count++] = word;
        line(words, count);
    }
    uap_close(&subscriber);
    uap_close(&publisher);
    if (wrong > 0 || datagrams < 60 || rows < 60 || notes < 60) {
        fprintf(stderr, "foreign: %u differ, of %u datagrams, %u rows and %u notes\n", wrong, datagrams, rows, notes);
        return 1;
    }
    printf("foreign: ok, %u datagrams, %u times a row or why there is none, %u times what was noted or refused\n", datagrams, rows, notes);
    return 0;
}
