// Two groups and two read groups: which group sends when, what each sends and takes, and when a reader's time is over.
#include "calls.h"

enum { QUICK, SLOW };
enum { QUICK_ID = 11, SLOW_ID = 12, WRITERS_BEHIND = 10 };

// Bytes of a datagram with a key frame of one UInt32.
enum { FRAME_BYTES = 20 };

static const char grouped[] =
    "[publisher]\nid = \"u8:9\"\n"
    "[[dataset]]\nname = \"quick_set\"\n"
    "[[dataset.field]]\nname = \"level\"\nkind = \"UInt32\"\n"
    "[[dataset]]\nname = \"slow_set\"\n"
    "[[dataset.field]]\nname = \"level\"\nkind = \"UInt32\"\n"
    "[[group]]\nname = \"quick\"\nid = 11\ninterval = 100\n"
    "[[group.writer]]\nname = \"quick_writer\"\nid = 21\ndataset = \"quick_set\"\n"
    "[[group]]\nname = \"slow\"\nid = 12\ninterval = 250\n"
    "[[group.writer]]\nname = \"slow_writer\"\nid = 22\ndataset = \"slow_set\"\n"
    "[[readgroup]]\nname = \"quick_peer\"\npublisher = \"u8:9\"\ngroup = 11\n"
    "[[readgroup.reader]]\nname = \"quick_reader\"\nwriter = 21\ndataset = \"quick_set\"\ntimeout = 1000\n"
    "[[readgroup]]\nname = \"slow_peer\"\npublisher = \"u8:9\"\ngroup = 12\n"
    "[[readgroup.reader]]\nname = \"slow_reader\"\nwriter = 22\ndataset = \"slow_set\"\ntimeout = 3000\n";

static bool is_of(const struct datagram *datagram, uint32_t id, uint32_t sequence) {
    struct header header = header_of(datagram);
    return header.group == id && header.writer == id + WRITERS_BEHIND && header.sequence == sequence;
}

static void set_levels(struct uap_handle *publisher, uint32_t quick, uint32_t slow) {
    DEMAND(uap_set_u32(publisher, QUICK, 0, quick) == UAP_OK && uap_set_u32(publisher, SLOW, 0, slow) == UAP_OK);
}

// ---- who sends when

// The groups that have a turn at a moment: a late turn counts as that of the last multiple of the interval, and those before it went by.
static const struct {
    uint64_t now;
    uint32_t ids[3];
} turns[] = {
    {0, {0}}, {99, {0}}, {100, {QUICK_ID}}, {199, {0}}, {200, {QUICK_ID}}, {249, {0}}, {250, {SLOW_ID}}, {300, {QUICK_ID}},
    {400, {QUICK_ID}}, {500, {QUICK_ID, SLOW_ID}}, {730, {QUICK_ID}}, {749, {0}}, {750, {SLOW_ID}}, {799, {0}}, {800, {QUICK_ID}},
    {1600, {QUICK_ID, SLOW_ID}}, {1699, {0}}, {1700, {QUICK_ID}}, {1749, {0}}, {1750, {SLOW_ID}},
};

static void check_due(void) {
    struct uap_handle publisher = UAP_CLOSED_HANDLE;
    struct datagram datagram;
    uint32_t sent[2] = {0, 0};
    DEMAND(uap_publisher_open(&publisher, grouped, sizeof grouped - 1) == UAP_OK);
    for (size_t i = 0; i < sizeof turns / sizeof *turns; i++) {
        for (const uint32_t *id = turns[i].ids; *id != 0; id++) {
            DEMAND(next(&publisher, turns[i].now, &datagram) == UAP_OK);
            DEMAND(is_of(&datagram, *id, sent[*id - QUICK_ID]++));
        }
        DEMAND(next(&publisher, turns[i].now, &datagram) == UAP_NONE);
    }
    DEMAND(uap_close(&publisher) == UAP_OK);
}

// ---- who takes what

static void check_filters(void) {
    struct uap_handle publisher = UAP_CLOSED_HANDLE, subscriber = UAP_CLOSED_HANDLE;
    struct datagram quick, slow;
    open_sides(&publisher, &subscriber, grouped);
    set_levels(&publisher, 1001, 2002);
    DEMAND(next(&publisher, 500, &quick) == UAP_OK && is_of(&quick, QUICK_ID, 0));
    DEMAND(next(&publisher, 500, &slow) == UAP_OK && is_of(&slow, SLOW_ID, 0));
    DEMAND(answer(&subscriber, SLOW, 500, &quick) == UAP_NOT_OURS && answer(&subscriber, QUICK, 500, &slow) == UAP_NOT_OURS);
    DEMAND(waits(&subscriber, QUICK, UAP_WHY_START) && waits(&subscriber, SLOW, UAP_WHY_START));
    DEMAND(takes(&subscriber, QUICK, 500, &quick) && reads(&subscriber, QUICK, 1001));
    DEMAND(waits(&subscriber, SLOW, UAP_WHY_START));
    DEMAND(takes(&subscriber, SLOW, 500, &slow) && reads(&subscriber, SLOW, 2002) && reads(&subscriber, QUICK, 1001));
    DEMAND(uap_reader_disable(&subscriber, SLOW, 0) == UAP_OK);
    DEMAND(waits(&subscriber, SLOW, UAP_WHY_RESTARTED) && reads(&subscriber, QUICK, 1001));
    DEMAND(uap_writer_disable(&publisher, SLOW, 0) == UAP_OK);
    DEMAND(next(&publisher, 1000, &quick) == UAP_OK && is_of(&quick, QUICK_ID, 1));
    DEMAND(next(&publisher, 1000, &slow) == UAP_NONE);
    close_sides(&publisher, &subscriber);
}

// ---- when a reader's time is over

static void check_timeouts(void) {
    struct uap_handle publisher = UAP_CLOSED_HANDLE, subscriber = UAP_CLOSED_HANDLE;
    struct datagram quick, slow;
    open_sides(&publisher, &subscriber, grouped);
    set_levels(&publisher, 1001, 2002);
    DEMAND(uap_subscriber_expire(&subscriber, 400) == UAP_OK);
    DEMAND(waits(&subscriber, QUICK, UAP_WHY_START));
    DEMAND(next(&publisher, 500, &quick) == UAP_OK && next(&publisher, 500, &slow) == UAP_OK);
    DEMAND(takes(&subscriber, QUICK, 500, &quick) && takes(&subscriber, SLOW, 500, &slow));
    DEMAND(next(&publisher, 600, &quick) == UAP_OK && takes(&subscriber, QUICK, 1400, &quick));
    DEMAND(uap_subscriber_expire(&subscriber, 2399) == UAP_OK);
    DEMAND(reads(&subscriber, QUICK, 1001) && reads(&subscriber, SLOW, 2002));
    DEMAND(uap_subscriber_expire(&subscriber, 2400) == UAP_OK);
    DEMAND(waits(&subscriber, QUICK, UAP_WHY_TIMEOUT) && reads(&subscriber, SLOW, 2002));
    DEMAND(uap_subscriber_expire(&subscriber, 3499) == UAP_OK);
    DEMAND(waits(&subscriber, QUICK, UAP_WHY_TIMEOUT) && reads(&subscriber, SLOW, 2002));
    DEMAND(uap_subscriber_expire(&subscriber, 3500) == UAP_OK);
    DEMAND(waits(&subscriber, QUICK, UAP_WHY_TIMEOUT) && waits(&subscriber, SLOW, UAP_WHY_TIMEOUT));
    DEMAND(next(&publisher, 3500, &quick) == UAP_OK && takes(&subscriber, QUICK, 3500, &quick));
    DEMAND(reads(&subscriber, QUICK, 1001) && has_waited(&subscriber, QUICK, UAP_WHY_TIMEOUT));
    DEMAND(waits(&subscriber, SLOW, UAP_WHY_TIMEOUT));
    close_sides(&publisher, &subscriber);
}

// ---- what waits for room

static bool is_untouched(const uint8_t *buffer, size_t length) {
    for (size_t i = 0; i < length; i++)
        if (buffer[i] != 0xaa) return false;
    return true;
}

// The datagram waits, with the values of its turn, while time goes on and fields are set, and the other group's turn waits behind it.
static void check_room(void) {
    struct uap_handle publisher = UAP_CLOSED_HANDLE, subscriber = UAP_CLOSED_HANDLE;
    struct datagram datagram;
    size_t length = 0;
    open_sides(&publisher, &subscriber, grouped);
    set_levels(&publisher, 1001, 2002);
    memset(datagram.bytes, 0xaa, sizeof datagram.bytes);
    DEMAND(uap_publisher_next(&publisher, 500, datagram.bytes, 0, &length) == UAP_ROOM && length == FRAME_BYTES);
    set_levels(&publisher, 1111, 2222);
    DEMAND(uap_publisher_next(&publisher, 750, datagram.bytes, FRAME_BYTES - 1, &length) == UAP_ROOM && length == FRAME_BYTES);
    DEMAND(is_untouched(datagram.bytes, sizeof datagram.bytes));
    DEMAND(uap_publisher_next(&publisher, 750, datagram.bytes, FRAME_BYTES, &datagram.length) == UAP_OK && datagram.length == FRAME_BYTES);
    DEMAND(is_untouched(datagram.bytes + FRAME_BYTES, sizeof datagram.bytes - FRAME_BYTES));
    DEMAND(is_of(&datagram, QUICK_ID, 0) && takes(&subscriber, QUICK, 750, &datagram) && reads(&subscriber, QUICK, 1001));
    DEMAND(next(&publisher, 750, &datagram) == UAP_OK && is_of(&datagram, QUICK_ID, 1));
    DEMAND(takes(&subscriber, QUICK, 750, &datagram) && reads(&subscriber, QUICK, 1111) && has_waited(&subscriber, QUICK, UAP_WHY_START));
    DEMAND(uap_publisher_next(&publisher, 750, datagram.bytes, 0, &length) == UAP_ROOM && length == FRAME_BYTES);
    DEMAND(next(&publisher, 750, &datagram) == UAP_OK && is_of(&datagram, SLOW_ID, 0));
    DEMAND(takes(&subscriber, SLOW, 750, &datagram) && reads(&subscriber, SLOW, 2222));
    DEMAND(next(&publisher, 750, &datagram) == UAP_NONE);
    close_sides(&publisher, &subscriber);
}

// All that is due in one buffer, or as many as there is room for, and then the others.
static void check_tick(void) {
    struct uap_handle publisher = UAP_CLOSED_HANDLE;
    struct datagram first, second;
    size_t lengths[4] = {0, 0, 0, 0}, count = 0;
    DEMAND(uap_publisher_open(&publisher, grouped, sizeof grouped - 1) == UAP_OK);
    DEMAND(uap_publisher_tick(&publisher, 0, first.bytes, sizeof first.bytes, lengths, 4, &count) == UAP_NONE && count == 0);
    DEMAND(uap_publisher_tick(&publisher, 500, first.bytes, sizeof first.bytes, lengths, 4, &count) == UAP_NONE && count == 2);
    DEMAND(lengths[0] == FRAME_BYTES && lengths[1] == FRAME_BYTES);
    first.length = second.length = FRAME_BYTES;
    memcpy(second.bytes, first.bytes + FRAME_BYTES, FRAME_BYTES);
    DEMAND(is_of(&first, QUICK_ID, 0) && is_of(&second, SLOW_ID, 0));
    DEMAND(uap_publisher_tick(&publisher, 1000, first.bytes, 2 * FRAME_BYTES - 1, lengths, 4, &count) == UAP_ROOM && count == 1);
    DEMAND(uap_publisher_tick(&publisher, 1000, second.bytes, 2 * FRAME_BYTES - 1, lengths, 4, &count) == UAP_NONE && count == 1);
    DEMAND(is_of(&first, QUICK_ID, 1) && is_of(&second, SLOW_ID, 1));
    DEMAND(uap_publisher_tick(&publisher, 1500, first.bytes, sizeof first.bytes, lengths, 1, &count) == UAP_ROOM && count == 1);
    DEMAND(uap_publisher_tick(&publisher, 1500, second.bytes, sizeof second.bytes, lengths, 4, &count) == UAP_NONE && count == 1);
    DEMAND(is_of(&first, QUICK_ID, 2) && is_of(&second, SLOW_ID, 2));
    DEMAND(uap_close(&publisher) == UAP_OK);
}

// ---- a turn of several datagrams

// A message of 210 bytes is cut into chunks of 103, each behind 25 bytes of header.
static const char wide[] =
    "[publisher]\nid = \"u8:9\"\n"
    "[[dataset]]\nname = \"set\"\n"
    "[[dataset.field]]\nname = \"text\"\nkind = \"String\"\ncap = 200\n"
    "[[group]]\nname = \"group\"\nid = 1\ninterval = 100\nmax_size = 128\n"
    "[[group.writer]]\nname = \"writer\"\nid = 1\ndataset = \"set\"\n"
    "[[readgroup]]\nname = \"peer\"\npublisher = \"u8:9\"\ngroup = 1\n"
    "[[readgroup.reader]]\nname = \"reader\"\nwriter = 1\ndataset = \"set\"\n";

// Each is given, once, also where a call before found no room for it.
static void check_pieces(void) {
    struct uap_handle publisher = UAP_CLOSED_HANDLE, subscriber = UAP_CLOSED_HANDLE;
    struct datagram datagram;
    char text[201], held[200];
    size_t length = 0;
    static const size_t lengths[] = {128, 128, 29};
    open_sides(&publisher, &subscriber, wide);
    for (int i = 0; i < 200; i++) text[i] = (char)('a' + i % 26);
    text[200] = 0;
    DEMAND(uap_set_text(&publisher, 0, 0, text) == UAP_OK);
    for (int i = 0; i < 3; i++) {
        DEMAND(uap_get_text(&subscriber, 0, 0, 0, held, sizeof held, &length) == UAP_NONE);
        DEMAND(uap_publisher_next(&publisher, 100, datagram.bytes, lengths[i] - 1, &length) == UAP_ROOM && length == lengths[i]);
        DEMAND(next(&publisher, 100, &datagram) == UAP_OK && datagram.length == lengths[i]);
        DEMAND(answer(&subscriber, 0, 100, &datagram) == UAP_OK);
    }
    DEMAND(next(&publisher, 100, &datagram) == UAP_NONE);
    DEMAND(uap_get_text(&subscriber, 0, 0, 0, held, sizeof held, &length) == UAP_OK && length == 200 && memcmp(held, text, 200) == 0);
    close_sides(&publisher, &subscriber);
}

void check_groups(void) {
    check_due();
    check_filters();
    check_timeouts();
    check_room();
    check_tick();
    check_pieces();
}
