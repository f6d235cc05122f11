// What each call answers that can't do what it says: for a null pointer, a closed handle, one of the other side, and an index out of range.
#include "calls.h"

// Indexes that nothing has. A byte would make 0 of the last two, which something has.
static const uint32_t absent[] = {9, 255, 256, 1u << 31};

// A data set, a secured group and a read group of it.
static const char small[] =
    "[publisher]\nid = \"u8:9\"\n"
    "[[dataset]]\nname = \"set\"\n"
    "[[dataset.field]]\nname = \"level\"\nkind = \"UInt32\"\n"
    "[[keygroup]]\nname = \"keys\"\npolicy = \"aes128\"\nrandom = \"00000000\"\n" SHORT_SET("1", "0", "a")
    "[[group]]\nname = \"group\"\nid = 1\ninterval = 100\nsecurity = \"sign\"\nkeygroup = \"keys\"\n"
    "[[group.writer]]\nname = \"writer\"\nid = 1\ndataset = \"set\"\n"
    "[[readgroup]]\nname = \"peer\"\npublisher = \"u8:9\"\ngroup = 1\nsecurity = \"sign\"\nkeygroup = \"keys\"\n"
    "[[readgroup.reader]]\nname = \"reader\"\nwriter = 1\ndataset = \"set\"\n";

// Room for what a call that succeeds would tell.
static uint8_t bytes[DATAGRAM_BYTES];
static size_t length, lengths[4];
static struct uap_key_set keys;
static struct uap_guid guid;
static struct uap_taken taken;

// ---- the calls, each with the status that it has to answer

static void demand_of_setters(struct uap_handle *handle, uint32_t set, uint32_t field, uint32_t status) {
    DEMAND(uap_set_bool(handle, set, field, true) == status);
    DEMAND(uap_set_i8(handle, set, field, 1) == status && uap_set_u8(handle, set, field, 1) == status);
    DEMAND(uap_set_i16(handle, set, field, 1) == status && uap_set_u16(handle, set, field, 1) == status);
    DEMAND(uap_set_i32(handle, set, field, 1) == status && uap_set_u32(handle, set, field, 1) == status);
    DEMAND(uap_set_i64(handle, set, field, 1) == status && uap_set_u64(handle, set, field, 1) == status);
    DEMAND(uap_set_f32_bits(handle, set, field, 1) == status && uap_set_f64_bits(handle, set, field, 1) == status);
    DEMAND(uap_set_f32(handle, set, field, 1) == status && uap_set_f64(handle, set, field, 1) == status);
    DEMAND(uap_set_date_time(handle, set, field, 1) == status && uap_set_status_code(handle, set, field, 1) == status);
    DEMAND(uap_set_text(handle, set, field, "text") == status && uap_set_bytes(handle, set, field, bytes, 4) == status);
    DEMAND(uap_set_guid(handle, set, field, &guid) == status && uap_set_field_status(handle, set, field, 0) == status);
}

static void demand_of_getters(struct uap_handle *handle, uint32_t group, uint32_t reader, uint32_t field, uint32_t status) {
    bool truth;
    int8_t i8;
    int16_t i16;
    int32_t i32;
    int64_t i64;
    uint8_t u8;
    uint16_t u16;
    uint32_t u32;
    uint64_t u64;
    float f32;
    double f64;
    DEMAND(uap_get_bool(handle, group, reader, field, &truth) == status);
    DEMAND(uap_get_i8(handle, group, reader, field, &i8) == status && uap_get_u8(handle, group, reader, field, &u8) == status);
    DEMAND(uap_get_i16(handle, group, reader, field, &i16) == status && uap_get_u16(handle, group, reader, field, &u16) == status);
    DEMAND(uap_get_i32(handle, group, reader, field, &i32) == status && uap_get_u32(handle, group, reader, field, &u32) == status);
    DEMAND(uap_get_i64(handle, group, reader, field, &i64) == status && uap_get_u64(handle, group, reader, field, &u64) == status);
    DEMAND(uap_get_f32_bits(handle, group, reader, field, &u32) == status && uap_get_f64_bits(handle, group, reader, field, &u64) == status);
    DEMAND(uap_get_f32(handle, group, reader, field, &f32) == status && uap_get_f64(handle, group, reader, field, &f64) == status);
    DEMAND(uap_get_date_time(handle, group, reader, field, &i64) == status && uap_get_status_code(handle, group, reader, field, &u32) == status);
    DEMAND(uap_get_text(handle, group, reader, field, (char *)bytes, sizeof bytes, &length) == status);
    DEMAND(uap_get_bytes(handle, group, reader, field, bytes, sizeof bytes, &length) == status);
    DEMAND(uap_get_guid(handle, group, reader, field, &guid) == status && uap_get_field_status(handle, group, reader, field, &u32) == status);
}

static void demand_of_own(struct uap_handle *handle, uint32_t set, uint32_t field, uint32_t status) {
    uint32_t u32;
    DEMAND(uap_own_u32(handle, set, field, &u32) == status && uap_own_field_status(handle, set, field, &u32) == status);
    DEMAND(uap_own_text(handle, set, field, (char *)bytes, sizeof bytes, &length) == status);
    DEMAND(uap_own_bytes(handle, set, field, bytes, sizeof bytes, &length) == status && uap_own_guid(handle, set, field, &guid) == status);
}

static void demand_of_writers(struct uap_handle *handle, uint32_t group, uint32_t writer, uint32_t status) {
    DEMAND(uap_writer_enable(handle, group, writer) == status && uap_writer_disable(handle, group, writer) == status);
    DEMAND(uap_writer_begin_at(handle, group, writer, 7) == status);
}

static void demand_of_readers(struct uap_handle *handle, uint32_t group, uint32_t reader, uint32_t status) {
    uint32_t why;
    uint16_t number;
    uint64_t age;
    struct uap_fault fault;
    struct uap_passed passed;
    struct uap_received received;
    DEMAND(uap_reader_enable(handle, group, reader) == status && uap_reader_disable(handle, group, reader) == status);
    DEMAND(uap_reader_why(handle, group, reader, &why) == status && uap_reader_number(handle, group, reader, &number) == status);
    DEMAND(uap_reader_age(handle, group, reader, 0, &age) == status && uap_reader_is_fresh(handle, group, reader, 0, 9) == status);
    DEMAND(uap_reader_last_fault(handle, group, reader, &fault) == status && uap_reader_passed(handle, group, reader, &passed) == status);
    DEMAND(uap_reader_received(handle, group, reader, &received) == status);
}

static void demand_of_key_groups(struct uap_handle *handle, uint32_t keygroup, uint32_t status) {
    uint32_t token, used;
    DEMAND(uap_publisher_standing(handle, keygroup, &token, &used) == status && uap_publisher_resume(handle, keygroup, 0, 9) == status);
    DEMAND(uap_publisher_resume_with(handle, keygroup, 0, 2, 9, &keys, 1) == status && uap_publisher_renew(handle, keygroup, &keys, 1) == status);
}

static void demand_of_read_groups(struct uap_handle *handle, uint32_t group, uint32_t status) {
    struct uap_refused refused;
    struct uap_last_taken last;
    DEMAND(uap_subscriber_datagram(handle, group, 0, bytes, 4, &taken) == status && uap_subscriber_renew(handle, group, &keys, 1) == status);
    DEMAND(uap_read_group_refused(handle, group, &refused) == status && uap_read_group_only(handle, group, 1) == status);
    DEMAND(uap_read_group_last_taken(handle, group, &last) == status);
}

static void demand_of_publisher(struct uap_handle *handle, uint32_t status) {
    size_t count;
    uint64_t moment;
    uint32_t group;
    demand_of_setters(handle, 0, 0, status);
    demand_of_own(handle, 0, 0, status);
    DEMAND(uap_publisher_due(handle, 0, &moment) == status && uap_publisher_group(handle, &group) == status);
    DEMAND(uap_group_may_turn(handle, 0) == status);
    demand_of_writers(handle, 0, 0, status);
    demand_of_key_groups(handle, 0, status);
    DEMAND(uap_publisher_save(handle, 9, bytes, sizeof bytes, &length) == status && uap_publisher_stored(handle) == status);
    DEMAND(uap_publisher_must_store(handle) == status && uap_publisher_restore(handle, 0, bytes, sizeof bytes) == status);
    DEMAND(uap_publisher_next(handle, 0, bytes, sizeof bytes, &length) == status);
    DEMAND(uap_publisher_tick(handle, 0, bytes, sizeof bytes, lengths, 4, &count) == status);
}

static void demand_of_subscriber(struct uap_handle *handle, uint32_t status) {
    demand_of_getters(handle, 0, 0, 0, status);
    demand_of_readers(handle, 0, 0, status);
    demand_of_read_groups(handle, 0, status);
    uint64_t moment;
    struct uap_takings takings;
    DEMAND(uap_subscriber_take(handle, 0, bytes, 4, &takings) == status);
    DEMAND(uap_subscriber_expire(handle, 0) == status && uap_subscriber_due(handle, 0, &moment) == status);
}

static void demand_of_lists(struct uap_handle *handle, uint32_t status) {
    size_t count;
    char name[UAP_NAME_ROOM];
    DEMAND(uap_dataset_count(handle, &count) == status && uap_dataset_name(handle, 0, name, sizeof name) == status);
    DEMAND(uap_keygroup_count(handle, &count) == status && uap_keygroup_name(handle, 0, name, sizeof name) == status);
    DEMAND(uap_group_count(handle, &count) == status && uap_group_name(handle, 0, name, sizeof name) == status);
    DEMAND(uap_read_group_count(handle, &count) == status && uap_read_group_name(handle, 0, name, sizeof name) == status);
}

static void demand_of_parts(struct uap_handle *handle, uint32_t of, uint32_t status) {
    size_t count;
    uint32_t index;
    char name[UAP_NAME_ROOM];
    struct uap_field info;
    DEMAND(uap_field_count(handle, of, &count) == status && uap_field_name(handle, of, 0, name, sizeof name) == status);
    DEMAND(uap_writer_count(handle, of, &count) == status && uap_writer_name(handle, of, 0, name, sizeof name) == status);
    DEMAND(uap_reader_count(handle, of, &count) == status && uap_reader_name(handle, of, 0, name, sizeof name) == status);
    DEMAND(uap_field_index(handle, of, "level", &index) == status && uap_writer_index(handle, of, "writer", &index) == status);
    DEMAND(uap_reader_index(handle, of, "reader", &index) == status && uap_field_info(handle, of, 0, &info) == status);
}

static void demand_of_places(struct uap_handle *handle, uint32_t index, uint32_t status) {
    char name[UAP_NAME_ROOM];
    struct uap_field info;
    DEMAND(uap_dataset_name(handle, index, name, sizeof name) == status && uap_field_name(handle, 0, index, name, sizeof name) == status);
    DEMAND(uap_keygroup_name(handle, index, name, sizeof name) == status && uap_group_name(handle, index, name, sizeof name) == status);
    DEMAND(uap_writer_name(handle, 0, index, name, sizeof name) == status && uap_read_group_name(handle, index, name, sizeof name) == status);
    DEMAND(uap_reader_name(handle, 0, index, name, sizeof name) == status && uap_field_info(handle, 0, index, &info) == status);
}

static void demand_of_names(struct uap_handle *handle, const char *name, uint32_t status) {
    uint32_t index;
    DEMAND(uap_dataset_index(handle, name, &index) == status && uap_field_index(handle, 0, name, &index) == status);
    DEMAND(uap_keygroup_index(handle, name, &index) == status && uap_group_index(handle, name, &index) == status);
    DEMAND(uap_writer_index(handle, 0, name, &index) == status && uap_read_group_index(handle, name, &index) == status);
    DEMAND(uap_reader_index(handle, 0, name, &index) == status);
}

// ---- null pointers

static void check_null_handles(void) {
    demand_of_publisher(NULL, UAP_NULL);
    demand_of_subscriber(NULL, UAP_NULL);
    demand_of_lists(NULL, UAP_NULL);
    demand_of_parts(NULL, 0, UAP_NULL);
    demand_of_names(NULL, "set", UAP_NULL);
    DEMAND(uap_publisher_open(NULL, small, sizeof small - 1) == UAP_NULL && uap_subscriber_open(NULL, small, sizeof small - 1) == UAP_NULL);
    DEMAND(uap_close(NULL) == UAP_NULL);
}

static void check_null_inputs(struct uap_handle *publisher, struct uap_handle *subscriber) {
    struct uap_handle closed = UAP_CLOSED_HANDLE;
    DEMAND(uap_config_check(NULL, 0, (char *)bytes, sizeof bytes, &length) == UAP_NULL);
    DEMAND(uap_publisher_open(&closed, NULL, 0) == UAP_NULL && uap_subscriber_open(&closed, NULL, 0) == UAP_NULL);
    demand_of_names(publisher, NULL, UAP_NULL);
    DEMAND(uap_set_text(publisher, 0, 0, NULL) == UAP_NULL && uap_set_bytes(publisher, 0, 0, NULL, 0) == UAP_NULL);
    DEMAND(uap_set_guid(publisher, 0, 0, NULL) == UAP_NULL && uap_publisher_renew(publisher, 0, NULL, 0) == UAP_NULL);
    DEMAND(uap_publisher_resume_with(publisher, 0, 0, 2, 9, NULL, 0) == UAP_NULL && uap_publisher_restore(publisher, 0, NULL, 0) == UAP_NULL);
    DEMAND(uap_subscriber_datagram(subscriber, 0, 0, NULL, 0, &taken) == UAP_NULL && uap_subscriber_renew(subscriber, 0, NULL, 0) == UAP_NULL);
}

static void check_null_outputs(struct uap_handle *publisher, struct uap_handle *subscriber) {
    uint32_t word;
    size_t count;
    DEMAND(uap_config_check(small, sizeof small - 1, NULL, 0, &length) == UAP_NULL);
    DEMAND(uap_config_check(small, sizeof small - 1, (char *)bytes, sizeof bytes, NULL) == UAP_NULL);
    DEMAND(uap_dataset_index(publisher, "set", NULL) == UAP_NULL && uap_field_index(publisher, 0, "level", NULL) == UAP_NULL);
    DEMAND(uap_group_count(publisher, NULL) == UAP_NULL && uap_writer_name(publisher, 0, 0, NULL, 99) == UAP_NULL);
    DEMAND(uap_field_info(publisher, 0, 0, NULL) == UAP_NULL && uap_get_word(subscriber, 0, 0, 0, UAP_UINT32, NULL) == UAP_NULL);
    DEMAND(uap_publisher_next(publisher, 0, NULL, 0, &length) == UAP_NULL && uap_publisher_next(publisher, 0, bytes, 9, NULL) == UAP_NULL);
    DEMAND(uap_publisher_standing(publisher, 0, NULL, &word) == UAP_NULL && uap_publisher_standing(publisher, 0, &word, NULL) == UAP_NULL);
    DEMAND(uap_publisher_tick(publisher, 0, NULL, 0, lengths, 4, &count) == UAP_NULL);
    DEMAND(uap_publisher_tick(publisher, 0, bytes, 9, NULL, 4, &count) == UAP_NULL);
    DEMAND(uap_publisher_tick(publisher, 0, bytes, 9, lengths, 4, NULL) == UAP_NULL);
    DEMAND(uap_subscriber_datagram(subscriber, 0, 0, bytes, 4, NULL) == UAP_NULL);
    DEMAND(uap_reader_why(subscriber, 0, 0, NULL) == UAP_NULL && uap_reader_number(subscriber, 0, 0, NULL) == UAP_NULL);
    DEMAND(uap_get_bool(subscriber, 0, 0, 0, NULL) == UAP_NULL && uap_get_i8(subscriber, 0, 0, 0, NULL) == UAP_NULL);
    DEMAND(uap_get_u8(subscriber, 0, 0, 0, NULL) == UAP_NULL && uap_get_i16(subscriber, 0, 0, 0, NULL) == UAP_NULL);
    DEMAND(uap_get_u16(subscriber, 0, 0, 0, NULL) == UAP_NULL && uap_get_i32(subscriber, 0, 0, 0, NULL) == UAP_NULL);
    DEMAND(uap_get_u32(subscriber, 0, 0, 0, NULL) == UAP_NULL && uap_get_i64(subscriber, 0, 0, 0, NULL) == UAP_NULL);
    DEMAND(uap_get_u64(subscriber, 0, 0, 0, NULL) == UAP_NULL && uap_get_f32_bits(subscriber, 0, 0, 0, NULL) == UAP_NULL);
    DEMAND(uap_get_f64_bits(subscriber, 0, 0, 0, NULL) == UAP_NULL && uap_get_f32(subscriber, 0, 0, 0, NULL) == UAP_NULL);
    DEMAND(uap_get_f64(subscriber, 0, 0, 0, NULL) == UAP_NULL && uap_get_date_time(subscriber, 0, 0, 0, NULL) == UAP_NULL);
    DEMAND(uap_get_status_code(subscriber, 0, 0, 0, NULL) == UAP_NULL && uap_get_guid(subscriber, 0, 0, 0, NULL) == UAP_NULL);
    DEMAND(uap_get_text(subscriber, 0, 0, 0, NULL, 0, &length) == UAP_NULL && uap_get_text(subscriber, 0, 0, 0, (char *)bytes, 9, NULL) == UAP_NULL);
    DEMAND(uap_get_bytes(subscriber, 0, 0, 0, NULL, 0, &length) == UAP_NULL && uap_get_bytes(subscriber, 0, 0, 0, bytes, 9, NULL) == UAP_NULL);
    DEMAND(uap_get_field_status(subscriber, 0, 0, 0, NULL) == UAP_NULL);
    DEMAND(uap_publisher_due(publisher, 0, NULL) == UAP_NULL && uap_publisher_group(publisher, NULL) == UAP_NULL);
    DEMAND(uap_own_u32(publisher, 0, 0, NULL) == UAP_NULL && uap_own_field_status(publisher, 0, 0, NULL) == UAP_NULL);
    DEMAND(uap_own_text(publisher, 0, 0, NULL, 0, &length) == UAP_NULL && uap_own_text(publisher, 0, 0, (char *)bytes, 9, NULL) == UAP_NULL);
    DEMAND(uap_own_bytes(publisher, 0, 0, NULL, 0, &length) == UAP_NULL && uap_own_guid(publisher, 0, 0, NULL) == UAP_NULL);
    DEMAND(uap_reader_age(subscriber, 0, 0, 0, NULL) == UAP_NULL && uap_subscriber_due(subscriber, 0, NULL) == UAP_NULL);
    DEMAND(uap_reader_last_fault(subscriber, 0, 0, NULL) == UAP_NULL && uap_reader_passed(subscriber, 0, 0, NULL) == UAP_NULL);
    DEMAND(uap_read_group_refused(subscriber, 0, NULL) == UAP_NULL && uap_reader_received(subscriber, 0, 0, NULL) == UAP_NULL);
    DEMAND(uap_read_group_last_taken(subscriber, 0, NULL) == UAP_NULL);
    struct uap_takings takings;
    DEMAND(uap_publisher_save(publisher, 9, NULL, 0, &length) == UAP_NULL && uap_publisher_save(publisher, 9, bytes, sizeof bytes, NULL) == UAP_NULL);
    DEMAND(uap_subscriber_take(subscriber, 0, NULL, 0, &takings) == UAP_NULL && uap_subscriber_take(subscriber, 0, bytes, 4, NULL) == UAP_NULL);
}

// ---- indexes

static void check_index(struct uap_handle *publisher, struct uap_handle *subscriber, uint32_t index) {
    demand_of_setters(publisher, index, 0, UAP_INDEX);
    demand_of_setters(publisher, 0, index, UAP_INDEX);
    demand_of_own(publisher, index, 0, UAP_INDEX);
    demand_of_own(publisher, 0, index, UAP_INDEX);
    DEMAND(uap_group_may_turn(publisher, index) == UAP_INDEX);
    demand_of_writers(publisher, index, 0, UAP_INDEX);
    demand_of_writers(publisher, 0, index, UAP_INDEX);
    demand_of_key_groups(publisher, index, UAP_INDEX);
    demand_of_getters(subscriber, index, 0, 0, UAP_INDEX);
    demand_of_getters(subscriber, 0, index, 0, UAP_INDEX);
    demand_of_getters(subscriber, 0, 0, index, UAP_INDEX);
    demand_of_readers(subscriber, index, 0, UAP_INDEX);
    demand_of_readers(subscriber, 0, index, UAP_INDEX);
    demand_of_read_groups(subscriber, index, UAP_INDEX);
    demand_of_parts(publisher, index, UAP_INDEX);
    demand_of_places(subscriber, index, UAP_INDEX);
}

// ---- what there is

static const char listed[] =
    "[publisher]\nid = \"u8:9\"\n"
    "[[dataset]]\nname = \"drive\"\nquality = true\n"
    "[[dataset.field]]\nname = \"speed\"\nkind = \"Double\"\n[[dataset.field]]\nname = \"label\"\nkind = \"String\"\ncap = 12\n"
    "[[dataset]]\nname = \"a_name_of_thirty_two_small_bytes\"\n[[dataset.field]]\nname = \"running\"\nkind = \"Boolean\"\n"
    "[[keygroup]]\nname = \"plant\"\npolicy = \"aes128\"\nrandom = \"00000000\"\n" SHORT_SET("1", "0", "a")
    "[[group]]\nname = \"fast\"\nid = 1\ninterval = 10\n[[group.writer]]\nname = \"one\"\nid = 1\ndataset = \"drive\"\n"
    "[[group]]\nname = \"slow\"\nid = 2\ninterval = 100\n[[group.writer]]\nname = \"two\"\nid = 2\ndataset = \"drive\"\n"
    "[[group.writer]]\nname = \"three\"\nid = 3\ndataset = \"drive\"\n"
    "[[readgroup]]\nname = \"peer\"\npublisher = \"u8:8\"\n[[readgroup.reader]]\nname = \"there\"\nwriter = 1\ndataset = \"drive\"\n";

static void demand_list(struct uap_handle *handle, uint32_t list, uint32_t of, const char *const *names) {
    char name[UAP_NAME_ROOM];
    uint32_t index = 0;
    size_t count;
    for (uint32_t i = 0; names[i] != NULL; i++) {
        DEMAND(uap_name(handle, list, of, i, name, sizeof name) == UAP_OK && strcmp(name, names[i]) == 0);
        DEMAND(uap_index(handle, list, of, name, &index) == UAP_OK && index == i);
        DEMAND(uap_count(handle, list, of, &count) == UAP_OK && count > i && (names[i + 1] != NULL || count == i + 1));
    }
}

#define NAMES(...) (const char *const[]){__VA_ARGS__, NULL}

static void demand_listed(struct uap_handle *handle) {
    char name[UAP_NAME_ROOM] = "as it was";
    struct uap_field info;
    uint32_t index;
    demand_list(handle, UAP_DATASETS, 0, NAMES("drive", "a_name_of_thirty_two_small_bytes"));
    demand_list(handle, UAP_FIELDS, 0, NAMES("speed", "label"));
    demand_list(handle, UAP_FIELDS, 1, NAMES("running"));
    demand_list(handle, UAP_KEYGROUPS, 0, NAMES("plant"));
    demand_list(handle, UAP_GROUPS, 0, NAMES("fast", "slow"));
    demand_list(handle, UAP_WRITERS, 0, NAMES("one"));
    demand_list(handle, UAP_WRITERS, 1, NAMES("two", "three"));
    demand_list(handle, UAP_READ_GROUPS, 0, NAMES("peer"));
    demand_list(handle, UAP_READERS, 0, NAMES("there"));
    DEMAND(uap_dataset_name(handle, 0, name, UAP_NAME_ROOM - 1) == UAP_ROOM && strcmp(name, "as it was") == 0);
    DEMAND(uap_field_info(handle, 0, 0, &info) == UAP_OK && info.kind == UAP_DOUBLE && info.cap == 0 && info.quality == 1);
    DEMAND(uap_field_info(handle, 0, 1, &info) == UAP_OK && info.kind == UAP_STRING && info.cap == 12 && info.quality == 1);
    DEMAND(uap_field_info(handle, 1, 0, &info) == UAP_OK && info.kind == UAP_BOOLEAN && info.cap == 0 && info.quality == 0);
    DEMAND(uap_writer_index(handle, 0, "two", &index) == UAP_INDEX && uap_field_index(handle, 0, "\xff", &index) == UAP_INDEX);
    DEMAND(uap_dataset_index(handle, "", &index) == UAP_INDEX && uap_name(handle, 7, 0, 0, name, sizeof name) == UAP_NO_KIND);
}

static void check_listed(void) {
    struct uap_handle publisher = UAP_CLOSED_HANDLE, subscriber = UAP_CLOSED_HANDLE;
    open_sides(&publisher, &subscriber, listed);
    demand_listed(&publisher);
    demand_listed(&subscriber);
    close_sides(&publisher, &subscriber);
}

// ---- names of numbers

static void check_names(void) {
    DEMAND(strcmp(uap_status_name(UAP_OK), "UAP_OK") == 0 && strcmp(uap_status_name(UAP_TOO_OLD), "UAP_TOO_OLD") == 0);
    DEMAND(strcmp(uap_status_name(24), "?") == 0 && strcmp(uap_status_name(100), "?") == 0 && strcmp(uap_status_name(UINT32_MAX), "?") == 0);
    DEMAND(strcmp(uap_why_name(UAP_WHY_GAP), "UAP_WHY_GAP") == 0 && strcmp(uap_why_name(6), "?") == 0);
}

void check_answers(void) {
    struct uap_handle publisher = UAP_CLOSED_HANDLE, subscriber = UAP_CLOSED_HANDLE, closed = UAP_CLOSED_HANDLE;
    keys = key_set(2, 0, 0xb);
    check_null_handles();
    demand_of_publisher(&closed, UAP_CLOSED);
    demand_of_subscriber(&closed, UAP_CLOSED);
    demand_of_lists(&closed, UAP_CLOSED);
    demand_of_parts(&closed, 0, UAP_CLOSED);
    demand_of_names(&closed, "set", UAP_CLOSED);
    open_sides(&publisher, &subscriber, small);
    check_null_inputs(&publisher, &subscriber);
    check_null_outputs(&publisher, &subscriber);
    demand_of_publisher(&subscriber, UAP_OTHER_SIDE);
    demand_of_subscriber(&publisher, UAP_OTHER_SIDE);
    for (size_t i = 0; i < sizeof absent / sizeof *absent; i++) check_index(&publisher, &subscriber, absent[i]);
    demand_of_names(&publisher, "sets", UAP_INDEX);
    demand_of_lists(&subscriber, UAP_OK);
    demand_of_parts(&publisher, 0, UAP_OK);
    check_listed();
    check_names();
    DEMAND(uap_publisher_open(&closed, "x", 1) == UAP_REFUSED && uap_subscriber_open(&closed, "x", 1) == UAP_REFUSED);
    DEMAND(uap_publisher_open(&subscriber, small, sizeof small - 1) == UAP_OPENED);
    DEMAND(uap_subscriber_open(&publisher, small, sizeof small - 1) == UAP_OPENED);
    close_sides(&publisher, &subscriber);
}
