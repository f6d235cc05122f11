// A datagram that is given to all read groups at once: what each answers and holds is what it does where it is given a copy alone.
#include "calls.h"

enum { READ_GROUPS = 4 };

#define GROUP(id, more)                                                                                                    \
    "[[group]]\nname = \"group" id "\"\nid = " id "\ninterval = 100\n" more                                                 \
    "[[group.writer]]\nname = \"writer" id "\"\nid = " id "\ndataset = \"set\"\nkey_frame_count = 1\n"
#define READ_GROUP(name, id, more)                                                                                         \
    "[[readgroup]]\nname = \"" name "\"\npublisher = \"u8:9\"\ngroup = " id "\n" more                                       \
    "[[readgroup.reader]]\nname = \"" name "_reader\"\nwriter = " id "\ndataset = \"set\"\n"
#define SECURED "security = \"encrypt\"\nkeygroup = \"keys\"\n"

// Two read groups decrypt the first group, one reads the second, and one is for a group that isn't sent.
static const char device[] =
    "[publisher]\nid = \"u8:9\"\n"
    "[[dataset]]\nname = \"set\"\n[[dataset.field]]\nname = \"level\"\nkind = \"UInt32\"\n"
    "[[keygroup]]\nname = \"keys\"\npolicy = \"aes128\"\nrandom = \"01020304\"\n" SHORT_SET("5", "0", "a")
    GROUP("11", SECURED) GROUP("12", "")
    READ_GROUP("first", "11", SECURED) READ_GROUP("plain", "12", "") READ_GROUP("second", "11", SECURED) READ_GROUP("none", "13", "");

static uint32_t take(struct uap_handle *subscriber, uint64_t now, const struct datagram *datagram, struct uap_takings *takings) {
    return uap_subscriber_take(subscriber, now, datagram->bytes, datagram->length, takings);
}

static bool same_refusals(struct uap_handle *one, struct uap_handle *other, uint32_t group) {
    struct uap_refused first, second;
    memset(&first, 0, sizeof first);
    memset(&second, 0, sizeof second);
    DEMAND(uap_read_group_refused(one, group, &first) == UAP_OK && uap_read_group_refused(other, group, &second) == UAP_OK);
    return memcmp(&first, &second, sizeof first) == 0;
}

// The first subscriber is given it at once, and the other a copy for each read group.
static struct uap_takings both(struct uap_handle *at_once, struct uap_handle *each, uint64_t now, const struct datagram *datagram) {
    struct uap_takings takings;
    struct datagram before = *datagram;
    uint32_t took = 0;
    DEMAND(take(at_once, now, datagram, &takings) == UAP_OK && memcmp(before.bytes, datagram->bytes, before.length) == 0);
    for (uint32_t group = 0; group < READ_GROUPS; group++) {
        const struct uap_answer *answer = &takings.groups[group];
        struct uap_taken taken = {0, 0, 0};
        uint32_t first = 0, second = 0;
        DEMAND(give(each, group, now, datagram, &taken) == answer->status && memcmp(&taken, &answer->taken, sizeof taken) == 0);
        took += answer->status == UAP_OK;
        DEMAND(uap_get_u32(at_once, group, 0, 0, &first) == uap_get_u32(each, group, 0, 0, &second) && first == second);
        DEMAND(same_refusals(at_once, each, group));
    }
    DEMAND(takings.took == took);
    return takings;
}

static bool answers(const struct uap_takings *takings, uint32_t one, uint32_t two, uint32_t three, uint32_t four) {
    const struct uap_answer *it = takings->groups;
    return it[0].status == one && it[1].status == two && it[2].status == three && it[3].status == four;
}

static void check_refused(struct uap_handle *at_once, struct uap_handle *each, struct datagram secured, struct datagram plain) {
    struct datagram garbage = spelled("ff00ff00");
    struct uap_takings takings = both(at_once, each, 100, &secured);
    DEMAND(answers(&takings, UAP_REPEATED, UAP_NOT_OURS, UAP_REPEATED, UAP_NOT_OURS) && takings.took == 0);
    secured.bytes[secured.length - 1] ^= 1;
    takings = both(at_once, each, 100, &secured);
    DEMAND(answers(&takings, UAP_SIGNATURE, UAP_NOT_OURS, UAP_SIGNATURE, UAP_NOT_OURS));
    for (secured.length = 0; secured.length < 30; secured.length++) both(at_once, each, 100, &secured);
    takings = both(at_once, each, 100, &garbage);
    DEMAND(answers(&takings, UAP_VERSION, UAP_VERSION, UAP_VERSION, UAP_VERSION));
    // a read group that asks for a NetworkMessageNumber alone
    DEMAND(uap_read_group_only(at_once, 1, 2) == UAP_OK && uap_read_group_only(each, 1, 2) == UAP_OK);
    takings = both(at_once, each, 100, &plain);
    DEMAND(answers(&takings, UAP_NOT_OURS, UAP_NOT_OURS, UAP_NOT_OURS, UAP_NOT_OURS));
}

// Of read groups that aren't there it says so.
static void check_fewer(const struct datagram *datagram) {
    struct uap_handle subscriber = UAP_CLOSED_HANDLE;
    struct uap_takings takings;
    const char *text = "publisher = {id = 'u8:9'}\ndataset = [{name = 'set', field = [{name = 'level', kind = 'UInt32'}]}]\n"
                       "readgroup = [{name = 'g', publisher = 'u8:9', group = 12, reader = [{name = 'r', writer = 12, dataset = 'set'}]}]\n";
    DEMAND(uap_subscriber_open(&subscriber, text, strlen(text)) == UAP_OK);
    DEMAND(take(&subscriber, 100, datagram, &takings) == UAP_OK && answers(&takings, UAP_OK, UAP_INDEX, UAP_INDEX, UAP_INDEX));
    DEMAND(takings.took == 1 && takings.groups[0].taken.matched == 1 && takings.groups[1].taken.parts == 0 && uap_close(&subscriber) == UAP_OK);
}

// Wrong pointers and handles, and a datagram that is longer than any; with each nothing is told.
static void check_wrong(struct uap_handle *publisher, struct uap_handle *subscriber) {
    static uint8_t long_one[UAP_MOST_DATAGRAM_BYTES + 1];
    struct uap_handle closed = UAP_CLOSED_HANDLE;
    struct uap_takings takings = {.took = 77};
    struct uap_refused refused;
    DEMAND(uap_subscriber_take(&closed, 100, long_one, 1, &takings) == UAP_CLOSED && uap_subscriber_take(publisher, 100, long_one, 1, &takings) == UAP_OTHER_SIDE);
    DEMAND(uap_subscriber_take(NULL, 100, long_one, 1, &takings) == UAP_NULL && uap_subscriber_take(subscriber, 100, NULL, 0, &takings) == UAP_NULL);
    DEMAND(uap_subscriber_take(subscriber, 100, long_one, 1, NULL) == UAP_NULL);
    DEMAND(uap_read_group_refused(subscriber, 0, &refused) == UAP_OK);
    const uint64_t count = refused.count;
    DEMAND(uap_subscriber_take(subscriber, 100, long_one, sizeof long_one, &takings) == UAP_ROOM && takings.took == 77);
    DEMAND(uap_read_group_refused(subscriber, 0, &refused) == UAP_OK && refused.count == count);
    DEMAND(uap_subscriber_take(subscriber, 100, long_one, sizeof long_one - 1, &takings) == UAP_OK && takings.took == 0);
}

void check_taking_all(void) {
    struct uap_handle publisher = UAP_CLOSED_HANDLE, at_once = UAP_CLOSED_HANDLE, each = UAP_CLOSED_HANDLE;
    struct datagram secured, plain;
    open_sides(&publisher, &at_once, device);
    DEMAND(uap_subscriber_open(&each, device, sizeof device - 1) == UAP_OK);
    DEMAND(uap_set_u32(&publisher, 0, 0, 7) == UAP_OK);
    DEMAND(next(&publisher, 100, &secured) == UAP_OK && next(&publisher, 100, &plain) == UAP_OK);
    struct uap_takings takings = both(&at_once, &each, 100, &secured);
    DEMAND(answers(&takings, UAP_OK, UAP_NOT_OURS, UAP_OK, UAP_NOT_OURS) && takings.took == 2);
    DEMAND(reads(&at_once, 0, 7) && reads(&at_once, 2, 7) && waits(&at_once, 1, UAP_WHY_START));
    takings = both(&at_once, &each, 100, &plain);
    DEMAND(answers(&takings, UAP_NOT_OURS, UAP_OK, UAP_NOT_OURS, UAP_NOT_OURS) && takings.took == 1 && reads(&at_once, 1, 7));
    check_refused(&at_once, &each, secured, plain);
    check_fewer(&plain);
    check_wrong(&publisher, &at_once);
    close_sides(&publisher, &at_once);
    DEMAND(uap_close(&each) == UAP_OK);
}
