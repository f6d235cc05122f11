// What a publisher stores, and how it goes on after it: numbers that wait for the store, restarts, bytes that are refused, what bytes say, the numbers at
// which writers begin, and 1,000 lives that end at any moment, in which no token and number comes twice.
#include "calls.h"

enum { AHEAD = 4, LIVES = 1000, STEPS = 40, PERIOD = 3000 };

#define DEVICE(id, writer, used, interval, kind)                                                                                  \
    "[publisher]\nid = \"u8:" id "\"\n"                                                                                           \
    "[[dataset]]\nname = \"set\"\n[[dataset.field]]\nname = \"level\"\nkind = \"" kind "\"\n"                                     \
    "[[keygroup]]\nname = \"keys\"\npolicy = \"aes128\"\nrandom = \"01020304\"\nused = " used "\n"                                 \
    SHORT_SET("5", "0", "a") SHORT_SET("6", "2000", "b")                                                                          \
    "[[group]]\nname = \"group\"\nid = 11\ninterval = " interval "\nsecurity = \"encrypt\"\nkeygroup = \"keys\"\n"                  \
    "[[group.writer]]\nname = \"writer\"\nid = " writer "\ndataset = \"set\"\nkey_frame_count = 1000\n"                            \
    "[[readgroup]]\nname = \"peer\"\npublisher = \"u8:9\"\ngroup = 11\nsecurity = \"encrypt\"\nkeygroup = \"keys\"\n"             \
    "[[readgroup.reader]]\nname = \"reader\"\nwriter = 11\ndataset = \"set\"\n"

static const char device[] = DEVICE("9", "11", "0", "100", "UInt32");

// A state, as a device has it in its store.
struct stored {
    uint8_t bytes[UAP_STATE_BYTES];
};

static bool stands(struct uap_handle *publisher, uint32_t keygroup, uint32_t token, uint32_t used) {
    uint32_t held = ~token, count = ~used;
    return uap_publisher_standing(publisher, keygroup, &held, &count) == UAP_OK && held == token && count == used;
}

static void open(struct uap_handle *publisher, const char *text) {
    DEMAND(uap_publisher_open(publisher, text, strlen(text)) == UAP_OK);
}

static struct stored save(struct uap_handle *publisher) {
    struct stored stored;
    size_t length = 0;
    DEMAND(uap_publisher_save(publisher, AHEAD, stored.bytes, sizeof stored.bytes, &length) == UAP_OK && length == UAP_STATE_BYTES);
    return stored;
}

static struct stored store(struct uap_handle *publisher) {
    struct stored stored = save(publisher);
    DEMAND(uap_publisher_stored(publisher) == UAP_OK);
    return stored;
}

static uint32_t restore(struct uap_handle *publisher, uint64_t now, const struct stored *stored) {
    return uap_publisher_restore(publisher, now, stored->bytes, sizeof stored->bytes);
}

// Whether bytes say these of the key group and of the first writer of the group with the same index.
static bool says(const struct stored *stored, uint32_t index, uint32_t token, uint32_t used, uint16_t number) {
    uint32_t held = ~token, count = ~used;
    uint16_t message = (uint16_t)~number;
    return uap_state_token(stored->bytes, sizeof stored->bytes, index, &held) == UAP_OK && held == token &&
           uap_state_used(stored->bytes, sizeof stored->bytes, index, &count) == UAP_OK && count == used &&
           uap_state_message(stored->bytes, sizeof stored->bytes, index, 0, &message) == UAP_OK && message == number;
}

// A turn with this level, whose datagram is under this token and number.
static void turn(struct uap_handle *publisher, uint64_t now, uint32_t level, uint32_t token, uint32_t number, struct datagram *datagram) {
    DEMAND(uap_set_u32(publisher, 0, 0, level) == UAP_OK && next(publisher, now, datagram) == UAP_OK);
    struct header header = header_of(datagram);
    DEMAND(header.token == token && header.number == number);
}

static void waits_for_the_store(struct uap_handle *publisher, uint64_t now, uint32_t level) {
    struct datagram datagram = {.bytes = {7}, .length = 99};
    DEMAND(uap_set_u32(publisher, 0, 0, level) == UAP_OK);
    DEMAND(next(publisher, now, &datagram) == UAP_UNSTORED && datagram.length == 0 && datagram.bytes[0] == 7);
    DEMAND(uap_publisher_must_store(publisher) == UAP_OK);
}

// Without a save nothing is withheld. After one each number waits until it is in store, and a save of which nothing was told covers nothing.
static void check_reserved(void) {
    struct uap_handle publisher = UAP_CLOSED_HANDLE;
    struct datagram datagram;
    open(&publisher, device);
    DEMAND(uap_publisher_must_store(&publisher) == UAP_OK && uap_publisher_stored(&publisher) == UAP_OK);
    turn(&publisher, 100, 1, 5, 1, &datagram);
    DEMAND(uap_publisher_must_store(&publisher) == UAP_OK);
    save(&publisher);
    waits_for_the_store(&publisher, 200, 2);
    DEMAND(uap_publisher_stored(&publisher) == UAP_OK && next(&publisher, 200, &datagram) == UAP_OK && header_of(&datagram).number == 2);
    DEMAND(uap_publisher_must_store(&publisher) == UAP_NONE);
    turn(&publisher, 300, 3, 5, 3, &datagram);
    DEMAND(uap_publisher_must_store(&publisher) == UAP_NONE);
    turn(&publisher, 400, 4, 5, 4, &datagram);
    DEMAND(uap_publisher_must_store(&publisher) == UAP_OK);
    turn(&publisher, 500, 5, 5, 5, &datagram);
    waits_for_the_store(&publisher, 600, 6);
    save(&publisher);
    waits_for_the_store(&publisher, 600, 6);
    DEMAND(uap_publisher_stored(&publisher) == UAP_OK && next(&publisher, 600, &datagram) == UAP_OK && header_of(&datagram).number == 6);
    // a save of less than what is in store leaves that in store
    struct stored stored;
    size_t length;
    DEMAND(uap_publisher_save(&publisher, 1, stored.bytes, sizeof stored.bytes, &length) == UAP_OK && says(&stored, 0, 5, 6 + AHEAD, 7));
    DEMAND(uap_close(&publisher) == UAP_OK);
}

// A publisher without keys has nothing to store.
static void check_plain(void) {
    struct uap_handle publisher = UAP_CLOSED_HANDLE;
    struct datagram datagram;
    open(&publisher, "publisher = {id = 'u8:9'}\ndataset = [{name = 's', field = [{name = 'f', kind = 'UInt32'}]}]\n"
                     "group = [{name = 'g', id = 1, interval = 100, writer = [{name = 'w', id = 2, dataset = 's'}]}]\n");
    DEMAND(uap_publisher_must_store(&publisher) == UAP_NONE);
    struct stored stored = save(&publisher);
    DEMAND(next(&publisher, 100, &datagram) == UAP_OK && uap_publisher_must_store(&publisher) == UAP_NONE && says(&stored, 0, 0, 0, AHEAD));
    DEMAND(uap_close(&publisher) == UAP_OK);
}

// What is first sent under a new token waits until that is in store.
static void check_new_token(void) {
    struct uap_handle publisher = UAP_CLOSED_HANDLE;
    struct datagram datagram;
    open(&publisher, device);
    store(&publisher);
    turn(&publisher, 1900, 1, 5, 1, &datagram);
    DEMAND(uap_publisher_must_store(&publisher) == UAP_NONE);
    waits_for_the_store(&publisher, 2000, 2);
    DEMAND(stands(&publisher, 0, 6, 1));
    store(&publisher);
    DEMAND(next(&publisher, 2000, &datagram) == UAP_OK && header_of(&datagram).token == 6);
    DEMAND(uap_close(&publisher) == UAP_OK);
}

// After a restart numbers go on after the stored ones, with a key frame that a reader of the last life takes at once.
static void check_restarted(void) {
    struct uap_handle publisher = UAP_CLOSED_HANDLE, subscriber = UAP_CLOSED_HANDLE;
    struct datagram datagram;
    uint16_t number = 0;
    open_sides(&publisher, &subscriber, device);
    struct stored stored = store(&publisher);
    DEMAND(says(&stored, 0, 5, AHEAD, AHEAD) && says(&stored, 1, 0, 0, 0));
    for (uint32_t i = 1; i <= AHEAD; i++) {
        turn(&publisher, 100 * i, i, 5, i, &datagram);
        DEMAND(takes(&subscriber, 0, 100 * i, &datagram) && reads(&subscriber, 0, i));
    }
    DEMAND(uap_close(&publisher) == UAP_OK);
    open(&publisher, device);
    DEMAND(restore(&publisher, 500, &stored) == UAP_OK && stands(&publisher, 0, 5, AHEAD));
    waits_for_the_store(&publisher, 500, 50);
    store(&publisher);
    DEMAND(next(&publisher, 500, &datagram) == UAP_OK);
    DEMAND(header_of(&datagram).number == AHEAD + 1 && takes(&subscriber, 0, 500, &datagram) && reads(&subscriber, 0, 50));
    DEMAND(uap_reader_number(&subscriber, 0, 0, &number) == UAP_OK && number == AHEAD);
    turn(&publisher, 600, 60, 5, AHEAD + 2, &datagram);
    DEMAND(takes(&subscriber, 0, 600, &datagram) && reads(&subscriber, 0, 60));
    close_sides(&publisher, &subscriber);
}

// A later token's numbers begin anew; what a configuration tells of itself isn't undone.
static void check_later_token(void) {
    struct uap_handle publisher = UAP_CLOSED_HANDLE;
    open(&publisher, device);
    struct stored stored = save(&publisher);
    DEMAND(uap_close(&publisher) == UAP_OK);
    open(&publisher, device);
    DEMAND(restore(&publisher, 2000, &stored) == UAP_OK && stands(&publisher, 0, 6, 0));
    DEMAND(uap_close(&publisher) == UAP_OK);
    open(&publisher, DEVICE("9", "11", "50", "100", "UInt32"));
    DEMAND(restore(&publisher, 0, &stored) == UAP_OK && stands(&publisher, 0, 5, 50));
    DEMAND(uap_close(&publisher) == UAP_OK);
}

// The bytes are refused by a publisher of this configuration at this moment, and nothing changes.
static void refuses(const char *text, uint64_t now, const void *bytes, size_t length, uint32_t status) {
    struct uap_handle publisher = UAP_CLOSED_HANDLE;
    struct datagram datagram;
    uint32_t token, used;
    open(&publisher, text);
    DEMAND(uap_publisher_standing(&publisher, 0, &token, &used) == UAP_OK);
    DEMAND(uap_publisher_restore(&publisher, now, bytes, length) == status && stands(&publisher, 0, token, used));
    DEMAND(next(&publisher, 200, &datagram) == UAP_OK && header_of(&datagram).number == used + 1);
    DEMAND(uap_close(&publisher) == UAP_OK);
}

static void check_refused(void) {
    struct uap_handle publisher = UAP_CLOSED_HANDLE, other = UAP_CLOSED_HANDLE;
    struct datagram datagram;
    uint8_t longer[UAP_STATE_BYTES + 1] = {0};
    open(&publisher, device);
    struct stored early = store(&publisher);
    memcpy(longer, early.bytes, sizeof early.bytes);
    refuses(device, 0, early.bytes, sizeof early.bytes - 1, UAP_DAMAGED);
    refuses(device, 0, longer, sizeof longer, UAP_DAMAGED);
    refuses(device, 0, longer, 0, UAP_DAMAGED);
    refuses(DEVICE("8", "11", "0", "100", "UInt32"), 0, early.bytes, sizeof early.bytes, UAP_OTHER_CONFIG);
    refuses(DEVICE("9", "12", "0", "100", "UInt32"), 0, early.bytes, sizeof early.bytes, UAP_OTHER_CONFIG);
    open(&other, DEVICE("9", "11", "0", "100", "Float"));
    DEMAND(restore(&other, 0, &early) == UAP_OTHER_CONFIG && uap_close(&other) == UAP_OK);
    // what a state isn't known by may be another, and it may be restored twice
    open(&other, DEVICE("9", "11", "0", "50", "UInt32"));
    DEMAND(restore(&other, 0, &early) == UAP_OK && stands(&other, 0, 5, AHEAD));
    DEMAND(restore(&other, 0, &early) == UAP_OK && stands(&other, 0, 5, AHEAD));
    DEMAND(uap_close(&other) == UAP_OK);
    DEMAND(uap_set_u32(&publisher, 0, 0, 1) == UAP_OK && next(&publisher, 2000, &datagram) == UAP_UNSTORED);
    struct stored late = save(&publisher);
    refuses(device, 1999, late.bytes, sizeof late.bytes, UAP_LATER_TOKEN);
    DEMAND(uap_publisher_save(&publisher, AHEAD, longer, UAP_STATE_BYTES - 1, &datagram.length) == UAP_ROOM && datagram.length == 0);
    DEMAND(memcmp(longer, early.bytes, sizeof early.bytes) == 0);
    DEMAND(uap_close(&publisher) == UAP_OK);
}

// Bytes with one bit turned, wherever it is, are refused, and say nothing.
static void check_damaged_states(void) {
    struct uap_handle publisher = UAP_CLOSED_HANDLE;
    open(&publisher, device);
    struct stored stored = save(&publisher);
    for (size_t i = 0; i < 8 * sizeof stored.bytes; i++) {
        struct stored damaged = stored;
        uint32_t token = 77, used = 77;
        uint16_t number = 77;
        damaged.bytes[i / 8] ^= (uint8_t)(1 << i % 8);
        DEMAND(restore(&publisher, 0, &damaged) == UAP_DAMAGED && stands(&publisher, 0, 5, 0));
        DEMAND(uap_state_token(damaged.bytes, sizeof damaged.bytes, 0, &token) == UAP_DAMAGED && token == 77);
        DEMAND(uap_state_used(damaged.bytes, sizeof damaged.bytes, 0, &used) == UAP_DAMAGED && used == 77);
        DEMAND(uap_state_message(damaged.bytes, sizeof damaged.bytes, 0, 0, &number) == UAP_DAMAGED && number == 77);
    }
    DEMAND(restore(&publisher, 0, &stored) == UAP_OK && uap_close(&publisher) == UAP_OK);
}

// Wrong pointers, handles and indexes.
static void check_wrong(void) {
    struct uap_handle publisher = UAP_CLOSED_HANDLE, subscriber = UAP_CLOSED_HANDLE;
    struct stored stored;
    size_t length = 9;
    uint32_t word = 77;
    uint16_t number = 77;
    DEMAND(uap_publisher_save(&publisher, 1, stored.bytes, sizeof stored.bytes, &length) == UAP_CLOSED && length == 0);
    DEMAND(uap_publisher_stored(&publisher) == UAP_CLOSED && uap_publisher_must_store(&publisher) == UAP_CLOSED);
    open_sides(&publisher, &subscriber, device);
    stored = save(&publisher);
    DEMAND(uap_publisher_save(&subscriber, 1, stored.bytes, sizeof stored.bytes, &length) == UAP_OTHER_SIDE && length == 0);
    DEMAND(restore(&subscriber, 0, &stored) == UAP_OTHER_SIDE && uap_writer_begin_at(&subscriber, 0, 0, 1) == UAP_OTHER_SIDE);
    DEMAND(uap_publisher_stored(&subscriber) == UAP_OTHER_SIDE && uap_publisher_must_store(&subscriber) == UAP_OTHER_SIDE);
    DEMAND(uap_publisher_save(&publisher, 1, NULL, 0, &length) == UAP_NULL && uap_publisher_restore(&publisher, 0, NULL, 0) == UAP_NULL);
    DEMAND(uap_publisher_save(NULL, 1, stored.bytes, sizeof stored.bytes, &length) == UAP_NULL && uap_publisher_stored(NULL) == UAP_NULL);
    DEMAND(uap_state_token(NULL, 0, 0, &word) == UAP_NULL && uap_state_used(stored.bytes, sizeof stored.bytes, 0, NULL) == UAP_NULL);
    DEMAND(uap_state_message(NULL, 0, 0, 0, &number) == UAP_NULL && uap_publisher_must_store(NULL) == UAP_NULL);
    DEMAND(uap_state_token(stored.bytes, sizeof stored.bytes, 3, &word) == UAP_OK && word == 0);
    word = 77;
    DEMAND(uap_state_token(stored.bytes, sizeof stored.bytes, 4, &word) == UAP_INDEX && uap_state_used(stored.bytes, sizeof stored.bytes, 1u << 31, &word) == UAP_INDEX);
    DEMAND(uap_state_message(stored.bytes, sizeof stored.bytes, 3, 15, &number) == UAP_OK && number == 0);
    number = 77;
    DEMAND(uap_state_message(stored.bytes, sizeof stored.bytes, 4, 0, &number) == UAP_INDEX && uap_state_message(stored.bytes, sizeof stored.bytes, 0, 16, &number) == UAP_INDEX);
    DEMAND(word == 77 && number == 77);
    close_sides(&publisher, &subscriber);
}

// A writer begins at a number that it is given before its group's first turn.
static void check_begun(void) {
    struct uap_handle publisher = UAP_CLOSED_HANDLE, subscriber = UAP_CLOSED_HANDLE;
    struct datagram datagram;
    uint16_t number = 0;
    open_sides(&publisher, &subscriber, device);
    DEMAND(uap_writer_begin_at(&publisher, 0, 1, 9) == UAP_INDEX && uap_writer_begin_at(&publisher, 1, 0, 9) == UAP_INDEX);
    DEMAND(uap_writer_begin_at(&publisher, 256, 0, 9) == UAP_INDEX && uap_writer_begin_at(NULL, 0, 0, 9) == UAP_NULL);
    DEMAND(uap_writer_begin_at(&publisher, 0, 0, 700) == UAP_OK && uap_writer_begin_at(&publisher, 0, 0, 65535) == UAP_OK);
    turn(&publisher, 100, 1, 5, 1, &datagram);
    DEMAND(takes(&subscriber, 0, 100, &datagram) && uap_reader_number(&subscriber, 0, 0, &number) == UAP_OK && number == 65535);
    DEMAND(uap_writer_begin_at(&publisher, 0, 0, 700) == UAP_BEGUN && uap_writer_begin_at(&publisher, 0, 1, 9) == UAP_INDEX);
    turn(&publisher, 200, 2, 5, 2, &datagram);
    DEMAND(takes(&subscriber, 0, 200, &datagram) && uap_reader_number(&subscriber, 0, 0, &number) == UAP_OK && number == 0);
    close_sides(&publisher, &subscriber);
}

// ---- lives

// Two key groups, of which one secures two groups, and a group without keys.
#define SENDS(name, id, interval, more)                                                                               \
    "[[group]]\nname = \"" name "\"\nid = " id "\ninterval = " interval "\n" more "[[group.writer]]\nname = \"" name   \
    "_writer\"\nid = " id "\ndataset = \"set\"\nkey_frame_count = 3\n"
#define BY(keys) "security = \"encrypt\"\nkeygroup = \"" keys "\"\n"

static const char several[] =
    "[publisher]\nid = \"u8:9\"\n[[dataset]]\nname = \"set\"\n[[dataset.field]]\nname = \"level\"\nkind = \"UInt32\"\n"
    "[[keygroup]]\nname = \"first\"\npolicy = \"aes128\"\nrandom = \"01020304\"\n" SHORT_SET("1", "0", "a")
    "[[keygroup]]\nname = \"second\"\npolicy = \"aes256\"\nrandom = \"05060708\"\n" LONG_SET("1", "0", "b")
    SENDS("fast", "11", "50", BY("first")) SENDS("slow", "12", "170", BY("first")) SENDS("other", "13", "80", BY("second")) SENDS("plain", "14", "100", "");

// A device's disk, and what came of its lives: of each key group the last pair that was sent.
struct lives {
    struct stored disk;
    bool has_disk;
    uint64_t now, chances;
    uint32_t token[2], number[2];
    unsigned long sent, waits;
};

static uint32_t any(struct lives *lives, uint32_t below) {
    lives->chances ^= lives->chances >> 12;
    lives->chances ^= lives->chances << 25;
    lives->chances ^= lives->chances >> 27;
    return (uint32_t)((lives->chances * 2685821657736338717u) >> 32) % below;
}

// The key group's ring: the key set of the period, and the next one.
static void renew(struct uap_handle *publisher, uint64_t now) {
    const uint64_t period = now / PERIOD;
    for (uint32_t keygroup = 0; keygroup < 2; keygroup++) {
        const uint8_t digit = (uint8_t)(keygroup + 1 + 2 * (period % 7));
        const struct uap_key_set sets[] = {key_set(2 + (uint32_t)period, 0, digit), key_set(3 + (uint32_t)period, PERIOD * (period + 1), (uint8_t)(digit + 2))};
        DEMAND(uap_publisher_renew(publisher, keygroup, sets, 2) == UAP_OK);
    }
}

// Saves, writes and tells it; a life may end between these. False: it did.
static bool stores(struct uap_handle *publisher, struct lives *lives) {
    size_t length;
    struct stored stored;
    DEMAND(uap_publisher_save(publisher, 1 + any(lives, 30), stored.bytes, sizeof stored.bytes, &length) == UAP_OK);
    if (any(lives, 20) == 0) return false;
    lives->disk = stored;
    lives->has_disk = true;
    if (any(lives, 20) == 0) return false;
    DEMAND(uap_publisher_stored(publisher) == UAP_OK);
    return true;
}

// A datagram is sent: its pair is above the last one of its key group.
static void sends(struct lives *lives, const struct datagram *datagram) {
    if (datagram->bytes[0] != 0xf1) return;
    const struct header header = header_of(datagram);
    const uint32_t keygroup = header.group == 13;
    const uint32_t token = lives->token[keygroup], number = lives->number[keygroup];
    DEMAND(header.token > token || (header.token == token && header.number > number));
    lives->token[keygroup] = header.token;
    lives->number[keygroup] = header.number;
    lives->sent++;
}

// What is due is sent. False: the life ended.
static bool publishes(struct uap_handle *publisher, struct lives *lives) {
    struct datagram datagram;
    uint32_t status;
    if (any(lives, 3) > 0 && uap_publisher_must_store(publisher) == UAP_OK && !stores(publisher, lives)) return false;
    while ((status = next(publisher, lives->now, &datagram)) == UAP_OK || status == UAP_UNSTORED) {
        if (any(lives, 50) == 0) return false;
        if (status == UAP_OK) sends(lives, &datagram);
        else if (!stores(publisher, lives)) return false;
        lives->waits += status == UAP_UNSTORED;
    }
    DEMAND(status == UAP_NONE);
    return true;
}

static void live(struct uap_handle *publisher, struct lives *lives) {
    open(publisher, several);
    renew(publisher, lives->now);
    if (lives->has_disk) DEMAND(restore(publisher, lives->now, &lives->disk) == UAP_OK);
    if (!stores(publisher, lives)) return;
    for (uint32_t step = 0; step < STEPS; step++) {
        lives->now += 1 + any(lives, 90);
        if (any(lives, 10) == 0) renew(publisher, lives->now);
        DEMAND(uap_set_u32(publisher, 0, 0, step) == UAP_OK);
        if (!publishes(publisher, lives)) return;
    }
}

static void check_lives(void) {
    struct lives lives = {.chances = 88172645463325252u};
    for (int life = 0; life < LIVES; life++) {
        struct uap_handle publisher = UAP_CLOSED_HANDLE;
        live(&publisher, &lives);
        DEMAND(uap_close(&publisher) == UAP_OK);
    }
    DEMAND(lives.sent > 5 * LIVES && lives.waits > LIVES / 10);
}

void check_storing(void) {
    check_reserved();
    check_plain();
    check_new_token();
    check_restarted();
    check_later_token();
    check_refused();
    check_damaged_states();
    check_wrong();
    check_begun();
    check_lives();
}
