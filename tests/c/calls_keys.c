// Key groups: numbers that were used before, a second key whose moment comes, going on after a restart, renewed keys, and spent tokens.
#include "calls.h"

// The first group and the first read group have the keys of the second key group, and the second ones those of the first.
enum { SHORT_KEYS, LONG_KEYS };
enum { LONG_GROUP, SHORT_GROUP, GROUPS };
enum { LONG_ID = 11, SHORT_ID = 12 };

// The 4 bytes that a key group's `random` is, as a number.
enum { SHORT_RANDOM = 0x04030201, LONG_RANDOM = 0x08070605 };

#define GROUP(keys, id)                                                                                                               \
    "[[group]]\nname = \"" keys "_group\"\nid = " id "\ninterval = 100\nsecurity = \"encrypt\"\nkeygroup = \"" keys "_keys\"\n"      \
    "[[group.writer]]\nname = \"" keys "_writer\"\nid = " id "\ndataset = \"set\"\nkey_frame_count = 1000\n"
#define READ_GROUP(keys, id)                                                                                                          \
    "[[readgroup]]\nname = \"" keys "_peer\"\npublisher = \"u8:9\"\ngroup = " id "\nsecurity = \"encrypt\"\nkeygroup = \"" keys "_keys\"\n" \
    "[[readgroup.reader]]\nname = \"" keys "_reader\"\nwriter = " id "\ndataset = \"set\"\n"
#define DEVICE(short_sets, long_sets)                                                                                                 \
    "[publisher]\nid = \"u8:9\"\n"                                                                                                    \
    "[[dataset]]\nname = \"set\"\n[[dataset.field]]\nname = \"level\"\nkind = \"UInt32\"\n"                                           \
    "[[keygroup]]\nname = \"short_keys\"\npolicy = \"aes128\"\nrandom = \"01020304\"\n" short_sets                                    \
    "[[keygroup]]\nname = \"long_keys\"\npolicy = \"aes256\"\nrandom = \"05060708\"\n" long_sets                                      \
    GROUP("long", "11") GROUP("short", "12") READ_GROUP("long", "11") READ_GROUP("short", "12")

// Second keys that come at other moments, behind numbers that were used.
static const char two_keys[] = DEVICE(
    "used = 41\n" SHORT_SET("5", "0", "a") SHORT_SET("6", "250", "b"),
    "used = 977\n" LONG_SET("15", "0", "c") LONG_SET("16", "350", "d"));

// The first keys alone, and the second keys alone.
static const char first_keys[] = DEVICE(SHORT_SET("5", "0", "a"), LONG_SET("15", "0", "c"));
static const char second_keys[] = DEVICE(SHORT_SET("6", "0", "b"), LONG_SET("16", "0", "d"));

static bool is_under(const struct datagram *datagram, uint32_t token, uint32_t number) {
    struct header header = header_of(datagram);
    return header.token == token && header.number == number;
}

static bool stands(struct uap_handle *publisher, uint32_t keygroup, uint32_t token, uint32_t used) {
    uint32_t held = ~token, count = ~used;
    return uap_publisher_standing(publisher, keygroup, &held, &count) == UAP_OK && held == token && count == used;
}

static void open_publisher(struct uap_handle *publisher, const char *text) {
    DEMAND(uap_publisher_open(publisher, text, strlen(text)) == UAP_OK);
}

// The datagrams of both groups at a moment, with this level.
static void turn(struct uap_handle *publisher, uint64_t now, uint32_t level, struct datagram both[GROUPS]) {
    struct datagram third;
    DEMAND(uap_set_u32(publisher, 0, 0, level) == UAP_OK);
    DEMAND(next(publisher, now, &both[LONG_GROUP]) == UAP_OK && next(publisher, now, &both[SHORT_GROUP]) == UAP_OK);
    DEMAND(next(publisher, now, &third) == UAP_NONE);
    struct header first = header_of(&both[LONG_GROUP]), second = header_of(&both[SHORT_GROUP]);
    DEMAND(first.group == LONG_ID && first.writer == LONG_ID && first.random == LONG_RANDOM);
    DEMAND(second.group == SHORT_ID && second.writer == SHORT_ID && second.random == SHORT_RANDOM);
}

// ---- numbers that were used before, and second keys

static void check_used(void) {
    struct uap_handle publisher = UAP_CLOSED_HANDLE;
    struct datagram both[GROUPS];
    open_publisher(&publisher, two_keys);
    DEMAND(stands(&publisher, SHORT_KEYS, 5, 41) && stands(&publisher, LONG_KEYS, 15, 977));
    turn(&publisher, 100, 1, both);
    DEMAND(is_under(&both[SHORT_GROUP], 5, 42) && is_under(&both[LONG_GROUP], 15, 978));
    DEMAND(stands(&publisher, SHORT_KEYS, 5, 42) && stands(&publisher, LONG_KEYS, 15, 978));
    DEMAND(uap_close(&publisher) == UAP_OK);
}

// A subscriber that has heard nothing holds a row behind a key frame, and none behind a delta frame.
static bool is_key_frame(const struct datagram *both, uint32_t group, uint64_t now, uint32_t level) {
    struct uap_handle fresh = UAP_CLOSED_HANDLE;
    DEMAND(uap_subscriber_open(&fresh, two_keys, sizeof two_keys - 1) == UAP_OK);
    DEMAND(takes(&fresh, group, now, &both[group]));
    bool is_held = reads(&fresh, group, level);
    DEMAND(is_held || waits(&fresh, group, UAP_WHY_START));
    DEMAND(uap_close(&fresh) == UAP_OK);
    return is_held;
}

// The last datagram that a read group accepted has this token and number; with neither it accepted none.
static bool took_last(struct uap_handle *subscriber, uint32_t group, uint32_t token, uint32_t number) {
    struct uap_last_taken last = {77, 77};
    uint32_t status = uap_read_group_last_taken(subscriber, group, &last);
    if (token == 0) return status == UAP_NONE && last.token == 77 && last.number == 77;
    return status == UAP_OK && last.token == token && last.number == number;
}

// What is first sent under a new token is a key frame, in the groups of the key group whose token it is, and the numbers begin at 1.
static void check_new_tokens(void) {
    struct uap_handle publisher = UAP_CLOSED_HANDLE, subscriber = UAP_CLOSED_HANDLE;
    struct datagram both[GROUPS];
    static const struct {
        bool is_key[GROUPS];
        uint32_t tokens[GROUPS], numbers[GROUPS];
    } expected[] = {
        {{true, true}, {15, 5}, {978, 42}},
        {{false, false}, {15, 5}, {979, 43}},
        {{false, true}, {15, 6}, {980, 1}},
        {{true, false}, {16, 6}, {1, 2}},
        {{false, false}, {16, 6}, {2, 3}},
    };
    open_sides(&publisher, &subscriber, two_keys);
    DEMAND(took_last(&subscriber, LONG_GROUP, 0, 0) && took_last(&subscriber, SHORT_GROUP, 0, 0));
    for (uint32_t i = 0; i < sizeof expected / sizeof *expected; i++) {
        uint64_t now = 100 * (i + 1);
        turn(&publisher, now, i, both);
        for (uint32_t group = 0; group < GROUPS; group++) {
            DEMAND(is_under(&both[group], expected[i].tokens[group], expected[i].numbers[group]));
            DEMAND(is_key_frame(both, group, now, i) == expected[i].is_key[group]);
            DEMAND(takes(&subscriber, group, now, &both[group]) && reads(&subscriber, group, i));
            DEMAND(took_last(&subscriber, group, expected[i].tokens[group], expected[i].numbers[group]));
            // one that comes again is refused, and is none that was accepted
            DEMAND(answer(&subscriber, group, now, &both[group]) == UAP_REPEATED);
            DEMAND(took_last(&subscriber, group, expected[i].tokens[group], expected[i].numbers[group]));
        }
    }
    DEMAND(has_waited(&subscriber, LONG_GROUP, UAP_WHY_NEW_TOKEN) && has_waited(&subscriber, SHORT_GROUP, UAP_WHY_NEW_TOKEN));
    close_sides(&publisher, &subscriber);
}

// ---- going on after a restart

// With the key whose moment has come, and in that key group alone.
static void check_resumed(void) {
    struct uap_handle publisher = UAP_CLOSED_HANDLE;
    struct datagram both[GROUPS];
    open_publisher(&publisher, two_keys);
    DEMAND(uap_publisher_resume(&publisher, SHORT_KEYS, 249, 700) == UAP_OK);
    DEMAND(stands(&publisher, SHORT_KEYS, 5, 700) && stands(&publisher, LONG_KEYS, 15, 977));
    DEMAND(uap_publisher_resume(&publisher, SHORT_KEYS, 249, 699) == UAP_NUMBERS_AGAIN && stands(&publisher, SHORT_KEYS, 5, 700));
    DEMAND(uap_publisher_resume(&publisher, SHORT_KEYS, 250, 500) == UAP_OK);
    DEMAND(stands(&publisher, SHORT_KEYS, 6, 500) && stands(&publisher, LONG_KEYS, 15, 977));
    DEMAND(uap_publisher_resume(&publisher, SHORT_KEYS, 300, 499) == UAP_NUMBERS_AGAIN && stands(&publisher, SHORT_KEYS, 6, 500));
    turn(&publisher, 300, 1, both);
    DEMAND(is_under(&both[SHORT_GROUP], 6, 501) && is_under(&both[LONG_GROUP], 15, 978));
    DEMAND(uap_publisher_resume(&publisher, LONG_KEYS, 350, 20) == UAP_OK);
    DEMAND(stands(&publisher, LONG_KEYS, 16, 20) && stands(&publisher, SHORT_KEYS, 6, 501));
    turn(&publisher, 400, 2, both);
    DEMAND(is_under(&both[SHORT_GROUP], 6, 502) && is_under(&both[LONG_GROUP], 16, 21));
    DEMAND(!is_key_frame(both, SHORT_GROUP, 400, 2) && is_key_frame(both, LONG_GROUP, 400, 2));
    DEMAND(uap_publisher_resume(&publisher, LONG_KEYS, 450, 30) == UAP_OK);
    turn(&publisher, 500, 3, both);
    DEMAND(is_under(&both[SHORT_GROUP], 6, 503) && is_under(&both[LONG_GROUP], 16, 31));
    DEMAND(!is_key_frame(both, SHORT_GROUP, 500, 3) && !is_key_frame(both, LONG_GROUP, 500, 3));
    DEMAND(uap_close(&publisher) == UAP_OK);
}

// A turn is had with 1,024 numbers left and with none fewer, and the other group goes on.
static void check_spent(void) {
    struct uap_handle publisher = UAP_CLOSED_HANDLE;
    struct datagram both[GROUPS], datagram;
    open_publisher(&publisher, first_keys);
    DEMAND(uap_publisher_resume(&publisher, LONG_KEYS, 0, UINT32_MAX - 1024) == UAP_OK);
    turn(&publisher, 100, 1, both);
    DEMAND(is_under(&both[LONG_GROUP], 15, UINT32_MAX - 1023) && is_under(&both[SHORT_GROUP], 5, 1));
    DEMAND(uap_set_u32(&publisher, 0, 0, 2) == UAP_OK);
    DEMAND(next(&publisher, 200, &datagram) == UAP_OK && is_under(&datagram, 5, 2));
    DEMAND(next(&publisher, 200, &datagram) == UAP_SPENT);
    DEMAND(uap_close(&publisher) == UAP_OK);
}

// ---- renewed keys

static const struct renewal {
    uint32_t keygroup, group, other_group;
    uint32_t token, new_token;
    uint8_t digit, new_digit;
} renewals[] = {
    {SHORT_KEYS, SHORT_GROUP, LONG_GROUP, 5, 6, 0xa, 0xb},
    {LONG_KEYS, LONG_GROUP, SHORT_GROUP, 15, 16, 0xc, 0xd},
};

// A publisher with a second key from 150 on: until then the first one and its numbers go on. One that is opened with the second key takes
// what is sent under it.
static void check_publisher_renewed(const struct renewal *it) {
    struct uap_handle publisher = UAP_CLOSED_HANDLE, second = UAP_CLOSED_HANDLE;
    struct datagram both[GROUPS];
    const struct uap_key_set sets[] = {key_set(it->token, 0, it->digit), key_set(it->new_token, 150, it->new_digit)};
    open_publisher(&publisher, first_keys);
    DEMAND(uap_subscriber_open(&second, second_keys, sizeof second_keys - 1) == UAP_OK);
    turn(&publisher, 100, 1, both);
    DEMAND(is_under(&both[it->group], it->token, 1));
    DEMAND(answer(&second, it->group, 100, &both[it->group]) == UAP_UNKNOWN_TOKEN);
    DEMAND(uap_publisher_renew(&publisher, it->keygroup, sets, 2) == UAP_OK && stands(&publisher, it->keygroup, it->token, 1));
    turn(&publisher, 200, 2, both);
    DEMAND(is_under(&both[it->group], it->new_token, 1) && stands(&publisher, it->keygroup, it->new_token, 1));
    DEMAND(header_of(&both[it->other_group]).number == 2);
    DEMAND(takes(&second, it->group, 200, &both[it->group]) && reads(&second, it->group, 2));
    DEMAND(answer(&second, it->other_group, 200, &both[it->other_group]) == UAP_UNKNOWN_TOKEN);
    close_sides(&publisher, &second);
}

// A subscriber with the second key beside the first: what it held and took stays so, and it takes what is sent under the second one.
static void check_subscriber_renewed(const struct renewal *it) {
    struct uap_handle publisher = UAP_CLOSED_HANDLE, second = UAP_CLOSED_HANDLE, subscriber = UAP_CLOSED_HANDLE;
    struct datagram before[GROUPS], behind[GROUPS];
    const struct uap_key_set sets[] = {key_set(it->token, 0, it->digit), key_set(it->new_token, 150, it->new_digit)};
    open_sides(&publisher, &subscriber, first_keys);
    open_publisher(&second, second_keys);
    turn(&publisher, 100, 1, before);
    turn(&second, 100, 2, behind);
    DEMAND(takes(&subscriber, it->group, 100, &before[it->group]));
    DEMAND(answer(&subscriber, it->group, 100, &behind[it->group]) == UAP_UNKNOWN_TOKEN && reads(&subscriber, it->group, 1));
    DEMAND(uap_subscriber_renew(&subscriber, it->group, sets, 2) == UAP_OK && reads(&subscriber, it->group, 1));
    DEMAND(answer(&subscriber, it->group, 100, &before[it->group]) == UAP_REPEATED);
    DEMAND(answer(&subscriber, it->other_group, 100, &behind[it->other_group]) == UAP_UNKNOWN_TOKEN);
    DEMAND(takes(&subscriber, it->group, 100, &behind[it->group]) && reads(&subscriber, it->group, 2));
    DEMAND(has_waited(&subscriber, it->group, UAP_WHY_NEW_TOKEN));
    DEMAND(answer(&subscriber, it->group, 100, &before[it->group]) == UAP_OLD_TOKEN);
    DEMAND(uap_subscriber_renew(&subscriber, it->group, sets, 1) == UAP_OK);
    DEMAND(answer(&subscriber, it->group, 100, &behind[it->group]) == UAP_UNKNOWN_TOKEN && reads(&subscriber, it->group, 2));
    close_sides(&publisher, &subscriber);
    DEMAND(uap_close(&second) == UAP_OK);
}

// A publisher that starts again with the second key, which came by a renewal: behind the number that it told last, in that key group alone.
static void check_renewed_resumed(const struct renewal *it) {
    struct uap_handle publisher = UAP_CLOSED_HANDLE, subscriber = UAP_CLOSED_HANDLE, fresh = UAP_CLOSED_HANDLE;
    struct datagram before[GROUPS], behind[GROUPS], last[GROUPS];
    const struct uap_key_set set = key_set(it->new_token, 0, it->new_digit);
    const struct uap_key_set sets[] = {set, key_set(it->new_token + 1, 150, 0xe)};
    uint32_t token, used;
    open_sides(&publisher, &subscriber, first_keys);
    DEMAND(uap_subscriber_open(&fresh, second_keys, sizeof second_keys - 1) == UAP_OK);
    DEMAND(uap_publisher_renew(&publisher, it->keygroup, &set, 1) == UAP_OK && uap_subscriber_renew(&subscriber, it->group, sets, 2) == UAP_OK);
    turn(&publisher, 100, 1, before);
    DEMAND(is_under(&before[it->group], it->new_token, 1) && takes(&subscriber, it->group, 100, &before[it->group]));
    DEMAND(uap_publisher_standing(&publisher, it->keygroup, &token, &used) == UAP_OK && uap_close(&publisher) == UAP_OK);
    open_publisher(&publisher, first_keys);
    DEMAND(uap_publisher_resume_with(&publisher, it->keygroup, 0, token, used, sets, 2) == UAP_OK);
    DEMAND(stands(&publisher, it->keygroup, it->new_token, 1) && stands(&publisher, !it->keygroup, renewals[!it->keygroup].token, 0));
    turn(&publisher, 100, 2, behind);
    DEMAND(is_under(&behind[it->group], it->new_token, 2) && header_of(&behind[it->other_group]).number == 1);
    DEMAND(answer(&subscriber, it->group, 200, &behind[it->group]) == UAP_OK);
    DEMAND(takes(&fresh, it->group, 200, &behind[it->group]) && reads(&fresh, it->group, 2));
    turn(&publisher, 200, 3, last);
    DEMAND(is_under(&last[it->group], it->new_token + 1, 1) && takes(&subscriber, it->group, 300, &last[it->group]) && reads(&subscriber, it->group, 3));
    close_sides(&publisher, &subscriber);
    DEMAND(uap_close(&fresh) == UAP_OK);
}

// In the midst of its life: under a later token the groups of the key group send key frames next, and a reader, which that token cuts, holds
// the row at once. Under the same token no group does.
static void check_resumed_frames(const struct renewal *it) {
    struct uap_handle publisher = UAP_CLOSED_HANDLE, subscriber = UAP_CLOSED_HANDLE;
    struct datagram both[GROUPS];
    const struct uap_key_set sets[] = {key_set(it->token, 0, it->digit), key_set(it->new_token, 400, it->new_digit)};
    const struct {
        uint64_t resumed;
        uint32_t token, used;
        bool is_key[2];
    } expected[] = {
        {0, it->token, 0, {true, true}},
        {0, it->token, 1, {false, false}},
        {250, it->token, 40, {false, false}},
        {400, it->new_token, 7, {true, false}},
        {450, it->new_token, 9, {false, false}},
    };
    open_publisher(&publisher, first_keys);
    DEMAND(uap_subscriber_open(&subscriber, two_keys, sizeof two_keys - 1) == UAP_OK);
    for (uint32_t i = 0; i < sizeof expected / sizeof *expected; i++) {
        uint64_t now = 100 * (i + 1), resumed = expected[i].resumed;
        uint32_t token = expected[i].token, used = expected[i].used;
        DEMAND(resumed == 0 || uap_publisher_resume_with(&publisher, it->keygroup, resumed, token, used, sets, 2) == UAP_OK);
        turn(&publisher, now, i, both);
        DEMAND(is_under(&both[it->group], token, used + 1) && header_of(&both[it->other_group]).number == i + 1);
        DEMAND(is_key_frame(both, it->group, now, i) == expected[i].is_key[0]);
        DEMAND(is_key_frame(both, it->other_group, now, i) == expected[i].is_key[1]);
        DEMAND(takes(&subscriber, it->group, now, &both[it->group]) && reads(&subscriber, it->group, i));
        DEMAND(takes(&subscriber, it->other_group, now, &both[it->other_group]) && reads(&subscriber, it->other_group, i));
    }
    DEMAND(has_waited(&subscriber, it->group, UAP_WHY_NEW_TOKEN) && has_waited(&subscriber, it->other_group, UAP_WHY_START));
    close_sides(&publisher, &subscriber);
}

// With a lower token or number, or with key sets that make no ring, nothing changes; a later token passes the numbers over.
static void check_resumed_with(const struct renewal *it) {
    struct uap_handle publisher = UAP_CLOSED_HANDLE;
    struct datagram both[GROUPS];
    const struct uap_key_set set = key_set(it->new_token, 0, it->new_digit), old = key_set(it->token, 0, it->digit);
    const struct uap_key_set late = key_set(it->new_token, 1, it->new_digit);
    const struct uap_key_set sets[] = {old, key_set(it->new_token, 150, it->new_digit)};
    struct uap_key_set many[17];
    for (uint32_t i = 0; i < 17; i++) many[i] = key_set(it->new_token + i, i, it->new_digit);
    open_publisher(&publisher, first_keys);
    DEMAND(uap_publisher_resume_with(&publisher, it->keygroup, 0, it->new_token, 700, &set, 1) == UAP_OK && stands(&publisher, it->keygroup, it->new_token, 700));
    DEMAND(uap_publisher_resume_with(&publisher, it->keygroup, 0, it->new_token, 699, &set, 1) == UAP_NUMBERS_AGAIN);
    DEMAND(uap_publisher_resume_with(&publisher, it->keygroup, 0, it->token, 800, &old, 1) == UAP_NUMBERS_AGAIN);
    DEMAND(uap_publisher_resume_with(&publisher, it->keygroup, 0, it->new_token + 1, 800, &set, 1) == UAP_EARLIER_TOKEN);
    DEMAND(uap_publisher_resume_with(&publisher, it->keygroup, 0, it->new_token, 800, &set, 0) == UAP_NO_RING);
    DEMAND(uap_publisher_resume_with(&publisher, it->keygroup, 0, it->new_token, 800, &late, 1) == UAP_NO_RING);
    DEMAND(uap_publisher_resume_with(&publisher, it->keygroup, 0, it->new_token, 800, many, 17) == UAP_MANY_KEYS);
    DEMAND(uap_publisher_resume_with(&publisher, 2, 0, it->new_token, 800, &set, 1) == UAP_INDEX);
    DEMAND(stands(&publisher, it->keygroup, it->new_token, 700));
    turn(&publisher, 100, 1, both);
    DEMAND(is_under(&both[it->group], it->new_token, 701) && header_of(&both[it->other_group]).number == 1);
    DEMAND(uap_publisher_resume_with(&publisher, it->keygroup, 149, it->new_token, 900, sets, 2) == UAP_EARLIER_TOKEN);
    DEMAND(uap_publisher_resume_with(&publisher, it->keygroup, 150, it->new_token, 900, sets, 2) == UAP_OK && stands(&publisher, it->keygroup, it->new_token, 900));
    DEMAND(uap_publisher_resume_with(&publisher, it->keygroup, 16, it->new_token, 3, many, 16) == UAP_OK);
    DEMAND(stands(&publisher, it->keygroup, it->new_token + 15, 3));
    DEMAND(uap_close(&publisher) == UAP_OK);
}

// Both sides with the second key: a datagram under its token that the first signing key signed is refused.
static void check_old_signature(const struct renewal *it) {
    struct uap_handle publisher = UAP_CLOSED_HANDLE, forger = UAP_CLOSED_HANDLE, subscriber = UAP_CLOSED_HANDLE;
    struct datagram both[GROUPS], forged[GROUPS];
    struct uap_key_set set = key_set(it->new_token, 0, it->new_digit), other = set;
    const struct uap_key_set first = key_set(it->token, 0, it->digit);
    memcpy(other.signing, first.signing, sizeof other.signing);
    open_sides(&publisher, &subscriber, first_keys);
    open_publisher(&forger, first_keys);
    DEMAND(uap_publisher_renew(&publisher, it->keygroup, &set, 1) == UAP_OK);
    DEMAND(uap_publisher_renew(&forger, it->keygroup, &other, 1) == UAP_OK);
    DEMAND(uap_subscriber_renew(&subscriber, it->group, &set, 1) == UAP_OK);
    turn(&publisher, 100, 1, both);
    turn(&forger, 100, 2, forged);
    DEMAND(is_under(&forged[it->group], it->new_token, 1) && answer(&subscriber, it->group, 100, &forged[it->group]) == UAP_SIGNATURE);
    DEMAND(waits(&subscriber, it->group, UAP_WHY_START));
    DEMAND(takes(&subscriber, it->group, 100, &both[it->group]) && reads(&subscriber, it->group, 1));
    close_sides(&publisher, &subscriber);
    DEMAND(uap_close(&forger) == UAP_OK);
}

// The datagram that docs/WIRE.md spells for its example of security, under a key that came by a renewal.
static void check_spelled(void) {
    struct uap_handle publisher = UAP_CLOSED_HANDLE;
    struct uap_key_set set = {.token = 1, .nonce = {0x33, 0x33, 0x33, 0x33}};
    struct datagram datagram, expected = spelled(
        "f1 10 05 09 01 00 00 00 01 01 00 03 01 00 00 00 08 00 00 00 00 01 00 00 00 "
        "81 d5 b9 1e e4 bd fd d3 72 2e c8 76 99 6a 02 b4 9c d2 62 a1 97 84 fa 90 48 "
        "73 e0 3c bb 56 05 55 62 64 68 16 87 7b 78 61 82 cf f1 cb 5e 80 3c 57 8e 11 7e 19 c3 4f 08 ad 89");
    static const char text[] =
        "[publisher]\nid = \"u8:5\"\n"
        "[[dataset]]\nname = \"demo\"\n"
        "[[dataset.field]]\nname = \"a\"\nkind = \"UInt32\"\n[[dataset.field]]\nname = \"b\"\nkind = \"UInt32\"\n"
        "[[dataset.field]]\nname = \"c\"\nkind = \"UInt32\"\n[[dataset.field]]\nname = \"d\"\nkind = \"UInt32\"\n"
        "[[keygroup]]\nname = \"keys\"\npolicy = \"aes128\"\nrandom = \"00000000\"\n" SHORT_SET("0", "0", "a")
        "[[group]]\nname = \"g1\"\nid = 1\ninterval = 100\nsecurity = \"encrypt\"\nkeygroup = \"keys\"\n"
        "[[group.writer]]\nname = \"w1\"\nid = 1\ndataset = \"demo\"\n";
    for (uint8_t i = 0; i < 32; i++) {
        set.signing[i] = i;
        set.encrypting[i] = i < 16 ? 0x40 + i : 0xff;
    }
    open_publisher(&publisher, text);
    DEMAND(uap_set_u32(&publisher, 0, 0, 7) == UAP_OK && uap_publisher_renew(&publisher, 0, &set, 1) == UAP_OK);
    DEMAND(next(&publisher, 100, &datagram) == UAP_OK);
    DEMAND(datagram.length == 82 && expected.length == 82 && memcmp(datagram.bytes, expected.bytes, 82) == 0);
    DEMAND(uap_close(&publisher) == UAP_OK);
}

// ---- key sets that make no ring

static void demand_refused(struct uap_handle *publisher, struct uap_handle *subscriber, const struct uap_key_set *sets, size_t count,
                           uint32_t status) {
    DEMAND(uap_publisher_renew(publisher, LONG_KEYS, sets, count) == status);
    DEMAND(uap_subscriber_renew(subscriber, LONG_GROUP, sets, count) == status);
}

// Behind each refusal the keys are those of before. Sixteen sets are a ring, and seventeen aren't.
static void check_rings(void) {
    struct uap_handle publisher = UAP_CLOSED_HANDLE, subscriber = UAP_CLOSED_HANDLE;
    struct datagram both[GROUPS];
    struct uap_key_set sets[17];
    open_sides(&publisher, &subscriber, first_keys);
    for (uint32_t i = 0; i < 17; i++) sets[i] = key_set(16 + i, i, 0xd);
    demand_refused(&publisher, &subscriber, sets, 0, UAP_NO_RING);
    demand_refused(&publisher, &subscriber, sets, 17, UAP_MANY_KEYS);
    demand_refused(&publisher, &subscriber, sets + 1, 1, UAP_NO_RING);
    sets[9].token = sets[8].token;
    demand_refused(&publisher, &subscriber, sets, 16, UAP_NO_RING);
    sets[9].token = sets[8].token + 1;
    sets[9].from_ms = sets[8].from_ms;
    demand_refused(&publisher, &subscriber, sets, 16, UAP_NO_RING);
    sets[9].from_ms = sets[8].from_ms + 1;
    turn(&publisher, 100, 1, both);
    DEMAND(is_under(&both[LONG_GROUP], 15, 1) && takes(&subscriber, LONG_GROUP, 100, &both[LONG_GROUP]));
    DEMAND(uap_publisher_renew(&publisher, LONG_KEYS, sets, 16) == UAP_OK && uap_subscriber_renew(&subscriber, LONG_GROUP, sets, 16) == UAP_OK);
    turn(&publisher, 200, 2, both);
    DEMAND(is_under(&both[LONG_GROUP], 31, 1));
    DEMAND(takes(&subscriber, LONG_GROUP, 200, &both[LONG_GROUP]) && reads(&subscriber, LONG_GROUP, 2));
    // a ring of lower tokens alone is taken, and the token in use stays
    sets[0] = key_set(3, 0, 0xe);
    DEMAND(uap_publisher_renew(&publisher, LONG_KEYS, sets, 1) == UAP_OK);
    turn(&publisher, 300, 3, both);
    DEMAND(is_under(&both[LONG_GROUP], 31, 2));
    close_sides(&publisher, &subscriber);
}

void check_keys(void) {
    check_used();
    check_new_tokens();
    check_resumed();
    check_spent();
    for (size_t i = 0; i < sizeof renewals / sizeof *renewals; i++) {
        check_publisher_renewed(&renewals[i]);
        check_subscriber_renewed(&renewals[i]);
        check_renewed_resumed(&renewals[i]);
        check_resumed_frames(&renewals[i]);
        check_resumed_with(&renewals[i]);
        check_old_signature(&renewals[i]);
    }
    check_spelled();
    check_rings();
}
