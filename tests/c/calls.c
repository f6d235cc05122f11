// The calls of include/uapubsub.h: what each answers to what a program may get wrong, and 100,000 damaged datagrams. With a seed as its
// word it damages by that one. It ends with status 1 at the first answer that is another. Parts with a subject of their own stand in
// tests/c/calls_*.c. What is expected is what the header and docs/ say.
//
// usage: calls LEFT RIGHT [SEED [TURNS]]     (the configurations examples/c/left.toml and right.toml; ten damaged datagrams a turn)
#include "calls.h"

enum { TURNS = 10000, COPIES = 10, EXTRA = 64 };

// The structs are laid out as those of the crate are.
_Static_assert(sizeof(struct uap_handle) == 16 && offsetof(struct uap_handle, held) == 8, "Handle");
_Static_assert(sizeof(struct uap_key_set) == 80 && offsetof(struct uap_key_set, nonce) == 4 && offsetof(struct uap_key_set, from_ms) == 8, "KeySetWords");
_Static_assert(offsetof(struct uap_key_set, signing) == 16 && offsetof(struct uap_key_set, encrypting) == 48, "KeySetWords");
_Static_assert(sizeof(struct uap_taken) == 12 && sizeof(struct uap_guid) == 16, "TakenWords, GuidBytes");
_Static_assert(sizeof(struct uap_answer) == 16 && sizeof(struct uap_takings) == 68 && offsetof(struct uap_takings, groups) == 4, "AnswerWords, TakingsWords");

static char left[1 << 16], right[1 << 16];
static size_t left_length, right_length;
static uint64_t state;
static uint32_t turns = TURNS;

static size_t read_text(const char *name, char *text, size_t room) {
    FILE *file = fopen(name, "rb");
    DEMAND(file != NULL);
    size_t length = fread(text, 1, room, file);
    fclose(file);
    return length;
}

// xorshift64*
static uint32_t chance(uint32_t below) {
    state ^= state >> 12;
    state ^= state << 25;
    state ^= state >> 27;
    return (uint32_t)((state * 2685821657736338717u) >> 32) % below;
}

// ---- what a program may get wrong

static void check_configurations(void) {
    char line[64];
    size_t written;
    DEMAND(uap_config_check(left, left_length, line, sizeof line, &written) == UAP_OK);
    DEMAND(uap_config_check("nonsense = ", 11, line, sizeof line, &written) == UAP_REFUSED);
    DEMAND(written == 20 && memcmp(line, "config: C1 BadToml .", 20) == 0);
    memset(line, '#', sizeof line);
    DEMAND(uap_config_check("nonsense = ", 11, line, 4, &written) == UAP_REFUSED && written == 4 && memcmp(line, "conf#", 5) == 0);
    DEMAND(uap_config_check("nonsense = ", 11, line, 0, &written) == UAP_REFUSED && written == 0 && memcmp(line, "conf#", 5) == 0);
    DEMAND(uap_config_check(left, left_length, NULL, 0, &written) == UAP_NULL);
}

static void check_handles(void) {
    struct uap_handle handle = UAP_CLOSED_HANDLE;
    uint8_t bytes[16];
    uint32_t index;
    size_t length;
    struct uap_taken taken;
    DEMAND(uap_set_u32(&handle, 0, 0, 1) == UAP_CLOSED);
    DEMAND(uap_publisher_next(&handle, 0, bytes, sizeof bytes, &length) == UAP_CLOSED);
    DEMAND(uap_close(&handle) == UAP_OK);
    DEMAND(uap_publisher_open(&handle, "x", 1) == UAP_REFUSED);
    DEMAND(uap_publisher_open(&handle, left, left_length) == UAP_OK);
    DEMAND(uap_publisher_open(&handle, left, left_length) == UAP_OPENED);
    DEMAND(uap_subscriber_open(&handle, left, left_length) == UAP_OPENED);
    DEMAND(uap_subscriber_datagram(&handle, 0, 0, bytes, sizeof bytes, &taken) == UAP_OTHER_SIDE);
    DEMAND(uap_dataset_index(&handle, "plant", &index) == UAP_OK && index == 0);
    DEMAND(uap_dataset_index(&handle, "plants", &index) == UAP_INDEX);
    DEMAND(uap_field_index(&handle, 0, "celsius", &index) == UAP_OK && index == 1);
    DEMAND(uap_field_index(&handle, 1, "celsius", &index) == UAP_INDEX);
    DEMAND(uap_close(&handle) == UAP_OK);
    DEMAND(uap_close(&handle) == UAP_OK);
    DEMAND(uap_set_u32(&handle, 0, 0, 1) == UAP_CLOSED);
    DEMAND(uap_set_u32(NULL, 0, 0, 1) == UAP_NULL);
}

static void check_publisher(void) {
    struct uap_handle handle = UAP_CLOSED_HANDLE;
    uint8_t bytes[DATAGRAM_BYTES];
    size_t length;
    uint32_t token, used;
    struct uap_key_set set = {.token = 7};
    DEMAND(uap_publisher_open(&handle, left, left_length) == UAP_OK);
    DEMAND(uap_set_u32(&handle, 0, 0, 1) == UAP_OK);
    DEMAND(uap_set_i32(&handle, 0, 0, 1) == UAP_MISFIT);
    DEMAND(uap_set_u32(&handle, 0, 99, 1) == UAP_INDEX);
    DEMAND(uap_set_u32(&handle, 9, 0, 1) == UAP_INDEX);
    DEMAND(uap_set_text(&handle, 0, 1, "this text is longer than its cap") == UAP_MISFIT);
    DEMAND(uap_set_text(&handle, 0, 1, "\xff") == UAP_BAD_TEXT);
    DEMAND(uap_set_field_status(&handle, 0, 0, 0) == UAP_OK);
    DEMAND(uap_set_field_status(&handle, 0, 0, 0x80000000u) == UAP_MISFIT);
    DEMAND(uap_publisher_next(&handle, 0, bytes, sizeof bytes, &length) == UAP_NONE);
    DEMAND(uap_publisher_next(&handle, 103, bytes, 4, &length) == UAP_ROOM && length > 4);
    DEMAND(uap_publisher_next(&handle, 103, bytes, length, &length) == UAP_OK);
    DEMAND(uap_publisher_next(&handle, 103, bytes, sizeof bytes, &length) == UAP_NONE);
    DEMAND(uap_publisher_next(&handle, 200, bytes, sizeof bytes, &length) == UAP_NONE);
    DEMAND(uap_set_u32(&handle, 0, 0, 2) == UAP_OK);
    DEMAND(uap_publisher_next(&handle, 299, bytes, sizeof bytes, &length) == UAP_NONE);
    DEMAND(uap_publisher_next(&handle, 305, bytes, sizeof bytes, &length) == UAP_OK);
    DEMAND(uap_publisher_standing(&handle, 0, &token, &used) == UAP_OK && token == 7 && used == 2);
    DEMAND(uap_publisher_standing(&handle, 1, &token, &used) == UAP_INDEX);
    DEMAND(uap_publisher_resume(&handle, 0, 305, 1) == UAP_NUMBERS_AGAIN);
    DEMAND(uap_publisher_resume(&handle, 0, 305, 1000) == UAP_OK);
    DEMAND(uap_publisher_standing(&handle, 0, &token, &used) == UAP_OK && used == 1000);
    DEMAND(uap_publisher_renew(&handle, 0, &set, 0) == UAP_NO_RING);
    DEMAND(uap_publisher_renew(&handle, 0, &set, 1) == UAP_OK);
    DEMAND(uap_publisher_resume(&handle, 0, 305, UINT32_MAX - 5) == UAP_OK);
    DEMAND(uap_publisher_next(&handle, 400, bytes, sizeof bytes, &length) == UAP_SPENT);
    DEMAND(uap_close(&handle) == UAP_OK);
}

// ---- Guids, statuses, and what is switched on and off

static const char mixed[] =
    "[publisher]\nid = \"u8:9\"\n"
    "[[dataset]]\nname = \"set\"\nquality = true\n"
    "[[dataset.field]]\nname = \"unit\"\nkind = \"Guid\"\n"
    "[[dataset.field]]\nname = \"level\"\nkind = \"Double\"\n"
    "[[group]]\nname = \"group\"\nid = 1\ninterval = 10\n"
    "[[group.writer]]\nname = \"writer\"\nid = 1\ndataset = \"set\"\nkey_frame_count = 100\n"
    "[[readgroup]]\nname = \"peer\"\npublisher = \"u8:9\"\ngroup = 1\n"
    "[[readgroup.reader]]\nname = \"reader\"\nwriter = 1\ndataset = \"set\"\ntimeout = 1000\n";

enum { UNCERTAIN = 0x40000000 };

// What the turn at this moment sends is taken; the answer says how often a message was given to a reader.
static uint32_t carry(struct uap_handle *publisher, struct uap_handle *subscriber, uint64_t now) {
    struct datagram datagram;
    struct uap_taken taken = {0, 0, 0};
    DEMAND(next(publisher, now, &datagram) == UAP_OK && give(subscriber, 0, now, &datagram, &taken) == UAP_OK);
    return taken.matched;
}

static void check_fields(struct uap_handle *publisher, struct uap_handle *subscriber) {
    struct uap_guid unit, held;
    uint32_t status = 1;
    double level;
    for (uint8_t i = 0; i < 16; i++) unit.bytes[i] = (uint8_t)(200 + i);
    DEMAND(uap_set_guid(publisher, 0, 0, &unit) == UAP_OK);
    DEMAND(uap_set_guid(publisher, 0, 1, &unit) == UAP_MISFIT);
    DEMAND(uap_set_f64(publisher, 0, 1, 2.5) == UAP_OK);
    DEMAND(uap_set_field_status(publisher, 0, 1, UNCERTAIN) == UAP_OK);
    DEMAND(uap_set_field_status(publisher, 0, 2, UNCERTAIN) == UAP_INDEX);
    DEMAND(uap_get_guid(subscriber, 0, 0, 0, &held) == UAP_NONE);
    DEMAND(uap_get_field_status(subscriber, 0, 0, 1, &status) == UAP_NONE && status == 1);
    DEMAND(carry(publisher, subscriber, 10) == 1);
    DEMAND(uap_get_guid(subscriber, 0, 0, 0, &held) == UAP_OK && memcmp(&held, &unit, sizeof unit) == 0);
    DEMAND(uap_get_guid(subscriber, 0, 0, 1, &held) == UAP_MISFIT);
    DEMAND(uap_get_f64(subscriber, 0, 0, 1, &level) == UAP_OK && level == 2.5);
    DEMAND(uap_get_field_status(subscriber, 0, 0, 0, &status) == UAP_OK && status == 0);
    DEMAND(uap_get_field_status(subscriber, 0, 0, 1, &status) == UAP_OK && status == UNCERTAIN);
    DEMAND(uap_get_field_status(subscriber, 0, 0, 2, &status) == UAP_INDEX);
}

static void check_switches(struct uap_handle *publisher, struct uap_handle *subscriber) {
    uint8_t bytes[DATAGRAM_BYTES];
    size_t length;
    uint32_t why;
    double level;
    DEMAND(uap_writer_disable(publisher, 0, 1) == UAP_INDEX && uap_writer_disable(publisher, 1, 0) == UAP_INDEX);
    DEMAND(uap_writer_disable(publisher, 0, 0) == UAP_OK);
    DEMAND(uap_set_f64(publisher, 0, 1, 3.5) == UAP_OK);
    DEMAND(uap_publisher_next(publisher, 20, bytes, sizeof bytes, &length) == UAP_NONE);
    DEMAND(uap_writer_enable(publisher, 0, 0) == UAP_OK);
    DEMAND(carry(publisher, subscriber, 30) == 1);
    DEMAND(uap_get_f64(subscriber, 0, 0, 1, &level) == UAP_OK && level == 3.5);
    DEMAND(uap_reader_disable(subscriber, 0, 1) == UAP_INDEX && uap_reader_disable(subscriber, 1, 0) == UAP_INDEX);
    DEMAND(uap_reader_disable(subscriber, 0, 0) == UAP_OK);
    DEMAND(uap_reader_why(subscriber, 0, 0, &why) == UAP_NONE && why == UAP_WHY_RESTARTED);
    DEMAND(uap_get_f64(subscriber, 0, 0, 1, &level) == UAP_NONE);
    DEMAND(uap_writer_enable(publisher, 0, 0) == UAP_OK);
    DEMAND(carry(publisher, subscriber, 40) == 0);
    DEMAND(uap_reader_enable(subscriber, 0, 0) == UAP_OK);
    DEMAND(uap_writer_enable(publisher, 0, 0) == UAP_OK);
    DEMAND(carry(publisher, subscriber, 50) == 1);
    DEMAND(uap_reader_why(subscriber, 0, 0, &why) == UAP_OK && why == UAP_WHY_RESTARTED);
    DEMAND(uap_reader_disable(publisher, 0, 0) == UAP_OTHER_SIDE && uap_writer_enable(subscriber, 0, 0) == UAP_OTHER_SIDE);
}

static void check_mixed(void) {
    struct uap_handle publisher = UAP_CLOSED_HANDLE, subscriber = UAP_CLOSED_HANDLE;
    DEMAND(uap_publisher_open(&publisher, mixed, sizeof mixed - 1) == UAP_OK);
    DEMAND(uap_subscriber_open(&subscriber, mixed, sizeof mixed - 1) == UAP_OK);
    check_fields(&publisher, &subscriber);
    check_switches(&publisher, &subscriber);
    DEMAND(uap_close(&publisher) == UAP_OK && uap_close(&subscriber) == UAP_OK);
}

// ---- damaged datagrams

// some bits turned, the end cut off, bytes behind it, or bytes of no datagram at all
static size_t damage(uint8_t *bytes, size_t length) {
    switch (chance(4)) {
    case 0:
        for (uint32_t times = 1 + chance(3); times > 0; times--) bytes[chance((uint32_t)length)] ^= (uint8_t)(1 << chance(8));
        return length;
    case 1: return chance((uint32_t)length);
    case 2:
        for (uint32_t more = 1 + chance(EXTRA); more > 0; more--) bytes[length++] = (uint8_t)chance(256);
        return length;
    default:
        length = chance(200);
        for (size_t i = 0; i < length; i++) bytes[i] = (uint8_t)chance(256);
        return length;
    }
}

// Gives a damaged copy.
static void give_damaged(struct uap_handle *subscriber, uint64_t now, const struct datagram *datagram) {
    struct datagram copy = *datagram;
    copy.length = damage(copy.bytes, copy.length);
    uint32_t status = answer(subscriber, 0, now, &copy);
    if (copy.length == datagram->length && memcmp(copy.bytes, datagram->bytes, copy.length) == 0) DEMAND(status == UAP_OK || status == UAP_REPEATED);
    else DEMAND(status >= UAP_HEADER_SHORT && status <= UAP_TOO_OLD);
}

static void check_damaged(void) {
    struct uap_handle publisher = UAP_CLOSED_HANDLE, subscriber = UAP_CLOSED_HANDLE;
    struct datagram datagram;
    uint32_t value;
    DEMAND(uap_publisher_open(&publisher, left, left_length) == UAP_OK);
    DEMAND(uap_subscriber_open(&subscriber, right, right_length) == UAP_OK);
    DEMAND(uap_get_u32(&subscriber, 0, 0, 0, &value) == UAP_NONE);
    for (uint32_t turn = 1; turn <= turns; turn++) {
        DEMAND(uap_set_u32(&publisher, 0, 0, turn) == UAP_OK);
        DEMAND(next(&publisher, turn * 100, &datagram) == UAP_OK);
        for (int copy = 0; copy < COPIES; copy++) give_damaged(&subscriber, turn * 100, &datagram);
        uint32_t status = answer(&subscriber, 0, turn * 100, &datagram);
        DEMAND(status == UAP_OK || status == UAP_REPEATED);
        DEMAND(uap_get_u32(&subscriber, 0, 0, 0, &value) == UAP_OK && value == turn);
    }
    DEMAND(uap_get_i32(&subscriber, 0, 0, 0, (int32_t *)&value) == UAP_MISFIT);
    DEMAND(uap_get_u32(&subscriber, 0, 1, 0, &value) == UAP_INDEX);
    DEMAND(uap_close(&publisher) == UAP_OK && uap_close(&subscriber) == UAP_OK);
}

int main(int count, char **words) {
    if (count < 3) {
        fprintf(stderr, "usage: calls LEFT RIGHT [SEED [TURNS]]\n");
        return 2;
    }
    left_length = read_text(words[1], left, sizeof left);
    right_length = read_text(words[2], right, sizeof right);
    state = count > 3 ? strtoull(words[3], NULL, 10) | 1 : 20260730;
    if (count > 4) turns = (uint32_t)strtoul(words[4], NULL, 10);
    check_configurations();
    check_handles();
    check_publisher();
    check_mixed();
    check_answers();
    check_groups();
    check_keys();
    check_kinds();
    check_memory();
    check_own();
    check_places();
    check_readers();
    check_refusals();
    check_storing();
    check_taking_all();
    check_damaged();
    printf("calls: ok, %u damaged datagrams\n", turns * COPIES);
    return 0;
}
