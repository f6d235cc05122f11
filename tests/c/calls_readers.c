// What is told of a reader: how old its row is, when its timeout passes, what it couldn't read or passed over, and what its read group refused.
// docs/WIRE.md has the bytes, docs/FAULTS.md the faults.
#include "calls.h"

enum { OPEN, SIGNED };

static const char heard[] =
    "[publisher]\nid = \"u8:5\"\n"
    "[[dataset]]\nname = \"set\"\n"
    "[[dataset.field]]\nname = \"level\"\nkind = \"UInt32\"\n"
    "[[keygroup]]\nname = \"keys\"\npolicy = \"aes128\"\nrandom = \"00000000\"\n" SHORT_SET("1", "0", "a")
    "[[readgroup]]\nname = \"open_peer\"\npublisher = \"u8:5\"\ngroup = 1\n"
    "[[readgroup.reader]]\nname = \"first\"\nwriter = 1\ndataset = \"set\"\ntimeout = 1000\n"
    "[[readgroup]]\nname = \"signed_peer\"\npublisher = \"u8:5\"\ngroup = 1\nsecurity = \"sign\"\nkeygroup = \"keys\"\n"
    "[[readgroup.reader]]\nname = \"second\"\nwriter = 1\ndataset = \"set\"\ntimeout = 3000\n";

// A header of the writer 1, and behind it a key frame or a delta frame with its number and its level, in hexadecimal.
#define HEADER "71 05 09 01 00 00 00 01 01 00 "
#define KEY(number, level) HEADER "09 " number " 00 01 00 07 " level " 00 00 00"
#define DELTA(number, level) HEADER "89 01 " number " 00 01 00 00 00 07 " level " 00 00 00"

static void open_subscriber(struct uap_handle *subscriber) {
    DEMAND(uap_subscriber_open(subscriber, heard, sizeof heard - 1) == UAP_OK);
}

static uint32_t came(struct uap_handle *subscriber, uint64_t now, const char *text) {
    struct datagram datagram = spelled(text);
    return answer(subscriber, OPEN, now, &datagram);
}

// ---- how old a row is

static bool is_aged(struct uap_handle *subscriber, uint64_t now, uint64_t age) {
    uint64_t told = ~age;
    bool fresh = uap_reader_is_fresh(subscriber, OPEN, 0, now, age) == UAP_OK;
    bool stale = age == 0 || uap_reader_is_fresh(subscriber, OPEN, 0, now, age - 1) == UAP_STALE;
    return uap_reader_age(subscriber, OPEN, 0, now, &told) == UAP_OK && told == age && fresh && stale;
}

static bool is_ageless(struct uap_handle *subscriber, uint64_t now) {
    uint64_t told = 77;
    return uap_reader_age(subscriber, OPEN, 0, now, &told) == UAP_NONE && told == 77 &&
           uap_reader_is_fresh(subscriber, OPEN, 0, now, UINT64_MAX) == UAP_NONE;
}

// Behind a gap messages that are taken confirm nothing, and begin the timeout anew: no timeout comes for as long as they do.
static void check_ages(void) {
    struct uap_handle subscriber = UAP_CLOSED_HANDLE;
    open_subscriber(&subscriber);
    DEMAND(is_ageless(&subscriber, 0) && is_ageless(&subscriber, 100));
    DEMAND(came(&subscriber, 100, KEY("00", "07")) == UAP_OK && is_aged(&subscriber, 100, 0) && is_aged(&subscriber, 130, 30));
    DEMAND(is_aged(&subscriber, 50, 0));
    DEMAND(came(&subscriber, 120, DELTA("01", "08")) == UAP_OK && reads(&subscriber, OPEN, 8) && is_aged(&subscriber, 130, 10));
    DEMAND(came(&subscriber, 140, DELTA("03", "09")) == UAP_OK && is_ageless(&subscriber, 140));
    DEMAND(came(&subscriber, 1000, DELTA("04", "0a")) == UAP_OK && uap_subscriber_expire(&subscriber, 1900) == UAP_OK);
    DEMAND(came(&subscriber, 1900, DELTA("05", "0b")) == UAP_OK && uap_subscriber_expire(&subscriber, 2800) == UAP_OK);
    DEMAND(waits(&subscriber, OPEN, UAP_WHY_GAP) && is_ageless(&subscriber, 2800));
    DEMAND(came(&subscriber, 2900, KEY("06", "0c")) == UAP_OK && reads(&subscriber, OPEN, 12) && is_aged(&subscriber, 2903, 3));
    // one that comes again confirms nothing
    DEMAND(came(&subscriber, 3000, KEY("06", "0c")) == UAP_OK && is_aged(&subscriber, 3000, 100));
    DEMAND(uap_subscriber_expire(&subscriber, 3899) == UAP_OK && is_aged(&subscriber, 3899, 999));
    DEMAND(uap_subscriber_expire(&subscriber, 3900) == UAP_OK && is_ageless(&subscriber, 3900) && waits(&subscriber, OPEN, UAP_WHY_TIMEOUT));
    DEMAND(uap_close(&subscriber) == UAP_OK);
}

// A keep-alive confirms the row.
static void check_alive(void) {
    static const char alive[] =
        "[publisher]\nid = \"u8:9\"\n"
        "[[dataset]]\nname = \"set\"\n[[dataset.field]]\nname = \"level\"\nkind = \"UInt32\"\n"
        "[[group]]\nname = \"group\"\nid = 1\ninterval = 100\n"
        "[[group.writer]]\nname = \"writer\"\nid = 1\ndataset = \"set\"\nkey_frame_count = 1000\nkeep_alive = 300\n"
        "[[readgroup]]\nname = \"peer\"\npublisher = \"u8:9\"\ngroup = 1\n[[readgroup.reader]]\nname = \"reader\"\nwriter = 1\ndataset = \"set\"\n";
    struct uap_handle publisher = UAP_CLOSED_HANDLE, subscriber = UAP_CLOSED_HANDLE;
    struct datagram datagram;
    open_sides(&publisher, &subscriber, alive);
    DEMAND(next(&publisher, 100, &datagram) == UAP_OK && takes(&subscriber, OPEN, 100, &datagram) && is_aged(&subscriber, 390, 290));
    DEMAND(next(&publisher, 200, &datagram) == UAP_NONE && next(&publisher, 300, &datagram) == UAP_NONE);
    DEMAND(next(&publisher, 400, &datagram) == UAP_OK && takes(&subscriber, OPEN, 400, &datagram) && is_aged(&subscriber, 405, 5));
    close_sides(&publisher, &subscriber);
}

// ---- when a timeout passes

static bool is_due(struct uap_handle *subscriber, uint64_t now, uint64_t moment) {
    uint64_t told = ~moment;
    return uap_subscriber_due(subscriber, now, &told) == UAP_OK && told == moment;
}

static void check_timeout(void) {
    struct uap_handle subscriber = UAP_CLOSED_HANDLE;
    uint64_t told = 77;
    open_subscriber(&subscriber);
    DEMAND(uap_subscriber_due(&subscriber, 0, &told) == UAP_NONE && told == 77);
    DEMAND(came(&subscriber, 1400, KEY("00", "07")) == UAP_OK && is_due(&subscriber, 1400, 2400));
    DEMAND(is_due(&subscriber, 2400, 2400) && is_due(&subscriber, 2500, 2500));
    DEMAND(uap_subscriber_expire(&subscriber, 2400) == UAP_OK && uap_subscriber_due(&subscriber, 2400, &told) == UAP_NONE && told == 77);
    DEMAND(uap_close(&subscriber) == UAP_OK);
}

// ---- what can't be read

enum { NOTHING = -1 };

// A fault with what it got, with the place of its field and the type byte of its value, where it has them.
static bool is_fault(struct uap_handle *subscriber, uint64_t bad, uint32_t number, uint32_t got, int field, int kind) {
    struct uap_fault fault;
    memset(&fault, 0x55, sizeof fault);
    return uap_reader_last_fault(subscriber, OPEN, 0, &fault) == UAP_OK && fault.bad == bad && fault.fault == number && fault.got == got &&
           fault.of == 0 && fault.field == (uint32_t)(field == NOTHING ? 0 : field) && fault.has_field == (field != NOTHING) &&
           fault.kind == (uint32_t)(kind == NOTHING ? 0 : kind) && fault.has_kind == (kind != NOTHING);
}

static const struct {
    uint32_t fault, got;
    int field, kind;
    const char *text;
} faults[] = {
    {UAP_FAULT_SHORT, 0, 0, UAP_UINT32, HEADER "09 00 00 01 00 07 07 00 00"},
    // a message that ends before its value begins, and before its count
    {UAP_FAULT_SHORT, 0, 0, NOTHING, HEADER "09 00 00 01 00"},
    {UAP_FAULT_SHORT, 0, NOTHING, NOTHING, HEADER "09 00 00 01"},
    {UAP_FAULT_ENCODING, 0, NOTHING, NOTHING, HEADER "0f 00 00 01 00 07 07 00 00 00"},
    // null, and a StatusCode where a UInt32 is due: as some publishers send a Bad field
    {UAP_FAULT_KIND, 0, 0, 0, HEADER "09 00 00 01 00 00 07 00 00 00"},
    {UAP_FAULT_VALUE, 0, 0, UAP_STATUS_CODE, HEADER "09 00 00 01 00 13 00 00 00 80"},
    // the same in a delta frame, behind a right value of the same field
    {UAP_FAULT_VALUE, 0, 0, UAP_STATUS_CODE, HEADER "89 01 00 00 02 00 00 00 07 07 00 00 00 00 00 13 00 00 00 80"},
    // a DataValue with a StatusCode as its value, one without a value, and one with a reserved bit
    {UAP_FAULT_VALUE, 0, 0, UAP_STATUS_CODE, HEADER "0d 00 00 01 00 01 13 00 00 00 80"},
    {UAP_FAULT_VALUE, 0, 0, NOTHING, HEADER "0d 00 00 01 00 02 00 00 00 80"},
    {UAP_FAULT_KIND, 0, 0, NOTHING, HEADER "0d 00 00 01 00 41 07 07 00 00 00"},
    // a greater minor version, whose second field isn't ours
    {UAP_FAULT_KIND, 0, 1, 0x1b, HEADER "49 00 00 09 00 00 00 02 00 07 07 00 00 00 1b 00"},
    {UAP_FAULT_INDEX, 3, NOTHING, NOTHING, HEADER "89 01 00 00 01 00 03 00 07 07 00 00 00"},
    {UAP_FAULT_COUNT, 2, NOTHING, NOTHING, HEADER "09 00 00 02 00 07 07 00 00 00 07 08 00 00 00"},
    {UAP_FAULT_NOT_VALID, 0, NOTHING, NOTHING, HEADER "08 00 00 01 00 07 07 00 00 00"},
    {UAP_FAULT_EVENT, 0, NOTHING, NOTHING, HEADER "89 02 00 00 01 00 07 07 00 00 00"},
    {UAP_FAULT_RESERVED, 0, NOTHING, NOTHING, HEADER "89 04 00 00 01 00 07 07 00 00 00"},
};

static bool is_row(struct uap_handle *subscriber, uint64_t bad, size_t i) {
    return is_fault(subscriber, bad, faults[i].fault, faults[i].got, faults[i].field, faults[i].kind);
}

static void check_faults(void) {
    struct uap_handle subscriber = UAP_CLOSED_HANDLE;
    const size_t count = sizeof faults / sizeof *faults;
    open_subscriber(&subscriber);
    DEMAND(is_fault(&subscriber, 0, UAP_FAULT_NONE, 0, NOTHING, NOTHING));
    for (size_t i = 0; i < count; i++) {
        DEMAND(came(&subscriber, 10, faults[i].text) == UAP_OK);
        if (!is_row(&subscriber, i + 1, i)) fprintf(stderr, "%s\n", faults[i].text);
        DEMAND(is_row(&subscriber, i + 1, i));
    }
    // one that can be read leaves it
    DEMAND(came(&subscriber, 20, KEY("00", "07")) == UAP_OK && is_row(&subscriber, count, count - 1));
    DEMAND(uap_close(&subscriber) == UAP_OK);
}

// ---- what is received

static bool has_received(struct uap_handle *subscriber, uint64_t lost, uint64_t stored, uint64_t seen) {
    struct uap_received received;
    memset(&received, 0x55, sizeof received);
    return uap_reader_received(subscriber, OPEN, 0, &received) == UAP_OK && received.lost == lost && received.stored == stored &&
           received.seen_ms == seen && received.has_seen == (seen != 0);
}

// A keep-alive, which carries the number of the next data frame.
#define ALIVE(number) HEADER "89 03 " number " 00"

static void check_received(void) {
    struct uap_handle subscriber = UAP_CLOSED_HANDLE;
    open_subscriber(&subscriber);
    DEMAND(has_received(&subscriber, 0, 0, 0));
    // nothing is missing before the first
    DEMAND(came(&subscriber, 10, KEY("05", "07")) == UAP_OK && has_received(&subscriber, 0, 1, 10));
    DEMAND(came(&subscriber, 20, DELTA("06", "08")) == UAP_OK && has_received(&subscriber, 0, 2, 20));
    // 7 and 8 are missing; the delta frame is taken, and stored nowhere
    DEMAND(came(&subscriber, 30, DELTA("09", "09")) == UAP_OK && has_received(&subscriber, 2, 2, 30));
    // 8 comes late: it is passed over, and stays counted
    DEMAND(came(&subscriber, 40, DELTA("08", "08")) == UAP_OK && has_received(&subscriber, 2, 2, 30));
    // a keep-alive names 12 as the next: 10 and 11 are missing, and 12 isn't counted again
    DEMAND(came(&subscriber, 50, ALIVE("0c")) == UAP_OK && has_received(&subscriber, 4, 2, 50));
    DEMAND(came(&subscriber, 60, KEY("0c", "0a")) == UAP_OK && has_received(&subscriber, 4, 3, 60));
    // one that tells nothing new is taken, and one that comes again isn't
    DEMAND(came(&subscriber, 70, ALIVE("0d")) == UAP_OK && has_received(&subscriber, 4, 3, 70));
    DEMAND(came(&subscriber, 80, KEY("0c", "0a")) == UAP_OK && has_received(&subscriber, 4, 3, 70));
    // behind a cut nothing is missing
    DEMAND(uap_subscriber_expire(&subscriber, 2000) == UAP_OK && came(&subscriber, 2001, KEY("20", "0a")) == UAP_OK);
    DEMAND(has_received(&subscriber, 4, 4, 2001));
    // an unsecured read group accepts nothing under a security header
    struct uap_last_taken last = {77, 77};
    DEMAND(uap_read_group_last_taken(&subscriber, OPEN, &last) == UAP_NONE && last.token == 77);
    // one that can't be read isn't taken
    DEMAND(came(&subscriber, 2010, KEY("21", "0a") " 01") == UAP_OK && has_received(&subscriber, 4, 4, 2001));
    DEMAND(uap_close(&subscriber) == UAP_OK);
}

// ---- what is passed over

static bool has_passed(struct uap_handle *subscriber, uint64_t other_major, uint64_t unnumbered, uint64_t older, uint32_t major) {
    struct uap_passed passed = {77, 77, 77, 77, 77};
    return uap_reader_passed(subscriber, OPEN, 0, &passed) == UAP_OK && passed.other_major == other_major && passed.unnumbered == unnumbered &&
           passed.older == older && passed.major == major && passed.has_major == (major != 0);
}

static void check_passed(void) {
    struct uap_handle subscriber = UAP_CLOSED_HANDLE;
    open_subscriber(&subscriber);
    DEMAND(has_passed(&subscriber, 0, 0, 0, 0));
    DEMAND(came(&subscriber, 10, HEADER "29 05 00 02 00 00 00 01 00 07 07 00 00 00") == UAP_OK && has_passed(&subscriber, 1, 0, 0, 2));
    DEMAND(came(&subscriber, 10, HEADER "01 01 00 07 07 00 00 00") == UAP_OK && has_passed(&subscriber, 1, 1, 0, 2));
    DEMAND(waits(&subscriber, OPEN, UAP_WHY_START));
    DEMAND(came(&subscriber, 10, KEY("05", "07")) == UAP_OK && has_passed(&subscriber, 1, 1, 0, 2) && reads(&subscriber, OPEN, 7));
    DEMAND(came(&subscriber, 10, KEY("04", "08")) == UAP_OK && has_passed(&subscriber, 1, 1, 1, 2) && reads(&subscriber, OPEN, 7));
    DEMAND(came(&subscriber, 10, HEADER "29 06 00 03 00 00 00 01 00 07 07 00 00 00") == UAP_OK && has_passed(&subscriber, 2, 1, 1, 3));
    DEMAND(uap_close(&subscriber) == UAP_OK);
}

// ---- what is refused

static bool has_refused(struct uap_handle *subscriber, uint32_t group, struct uap_refused as) {
    struct uap_refused told;
    memset(&told, 0x55, sizeof told);
    return uap_read_group_refused(subscriber, group, &told) == UAP_OK && told.count == as.count && told.publisher == as.publisher &&
           told.status == as.status && told.publisher_type == as.publisher_type && told.group == as.group && told.has_group == as.has_group &&
           told.version == as.version && told.has_version == as.has_version && told.number == as.number && told.has_number == as.has_number &&
           told.token == as.token && told.has_token == as.has_token;
}

#define REFUSED(...) ((struct uap_refused){__VA_ARGS__})

static void check_refused(void) {
    struct uap_handle subscriber = UAP_CLOSED_HANDLE;
    struct datagram token = spelled("f1 10 05 09 01 00 00 00 01 01 00 01 03 00 00 00 08 00 00 00 00 01 00 00 00 "
                                    "00 00 00 00 00 00 00 00 00 00 00 00 00 00 00 00 00 00 00 00 00 00 00 00 00 00 00 00 00 00 00 00");
    open_subscriber(&subscriber);
    DEMAND(has_refused(&subscriber, OPEN, REFUSED(.count = 0)));
    DEMAND(came(&subscriber, 10, "71 06 09 01 00 00 00 01 01 00 09 00 00 01 00 07 07 00 00 00") == UAP_NOT_OURS);
    DEMAND(has_refused(&subscriber, OPEN,
                       REFUSED(.count = 1, .status = UAP_NOT_OURS, .publisher = 6, .publisher_type = UAP_BYTE, .group = 1, .has_group = 1)));
    // a PublisherId of 16 bits, another group with its version and number
    DEMAND(came(&subscriber, 10, "f1 01 05 00 0f 02 00 04 03 02 01 09 00 00 00 01 01 00 09 00 00 01 00 07 07 00 00 00") == UAP_NOT_OURS);
    DEMAND(has_refused(&subscriber, OPEN,
                       REFUSED(.count = 2, .status = UAP_NOT_OURS, .publisher = 5, .publisher_type = UAP_UINT16, .group = 2, .has_group = 1,
                               .version = 0x01020304, .has_version = 1, .number = 9, .has_number = 1)));
    DEMAND(came(&subscriber, 10, "71 05") == UAP_HEADER_SHORT);
    DEMAND(has_refused(&subscriber, OPEN, REFUSED(.count = 3, .status = UAP_HEADER_SHORT)));
    DEMAND(came(&subscriber, 10, KEY("00", "07")) == UAP_OK);
    DEMAND(has_refused(&subscriber, OPEN, REFUSED(.count = 3, .status = UAP_HEADER_SHORT)) && has_refused(&subscriber, SIGNED, REFUSED(.count = 0)));
    DEMAND(answer(&subscriber, SIGNED, 10, &token) == UAP_UNKNOWN_TOKEN);
    DEMAND(has_refused(&subscriber, SIGNED, REFUSED(.count = 1, .status = UAP_UNKNOWN_TOKEN, .token = 3, .has_token = 1)));
    DEMAND(uap_close(&subscriber) == UAP_OK);
}

// ---- which NetworkMessages are taken

#define NUMBERED(number) "71 05 0d 01 00 " number " 00 00 00 01 01 00 09 00 00 01 00 07 07 00 00 00"

static void check_only(void) {
    struct uap_handle subscriber = UAP_CLOSED_HANDLE;
    open_subscriber(&subscriber);
    DEMAND(came(&subscriber, 10, NUMBERED("01")) == UAP_OK && came(&subscriber, 10, NUMBERED("02")) == UAP_OK);
    DEMAND(uap_read_group_only(&subscriber, OPEN, 2) == UAP_OK);
    DEMAND(came(&subscriber, 10, NUMBERED("01")) == UAP_NOT_OURS && came(&subscriber, 10, NUMBERED("02")) == UAP_OK);
    DEMAND(came(&subscriber, 10, KEY("00", "07")) == UAP_NOT_OURS);
    DEMAND(uap_read_group_only(&subscriber, OPEN, 0) == UAP_OK);
    DEMAND(came(&subscriber, 10, NUMBERED("01")) == UAP_OK && came(&subscriber, 10, KEY("00", "07")) == UAP_OK);
    DEMAND(uap_close(&subscriber) == UAP_OK);
}

void check_readers(void) {
    check_ages();
    check_alive();
    check_timeout();
    check_faults();
    check_received();
    check_passed();
    check_refused();
    check_only();
}
