// What a publisher is asked of itself: its next moment, the group of a datagram, groups that are spent, and its own rows.
#include "calls.h"

enum { QUICK, SLOW };

static const char grouped[] =
    "[publisher]\nid = \"u8:9\"\n"
    "[[dataset]]\nname = \"set\"\nquality = true\n"
    "[[dataset.field]]\nname = \"level\"\nkind = \"UInt32\"\n"
    "[[dataset.field]]\nname = \"label\"\nkind = \"String\"\ncap = 12\n"
    "[[dataset.field]]\nname = \"blob\"\nkind = \"ByteString\"\ncap = 12\n"
    "[[dataset.field]]\nname = \"unit\"\nkind = \"Guid\"\n"
    "[[dataset.field]]\nname = \"offset\"\nkind = \"Int16\"\n"
    "[[keygroup]]\nname = \"keys\"\npolicy = \"aes128\"\nrandom = \"00000000\"\n" SHORT_SET("1", "0", "a") SHORT_SET("2", "1020", "b")
    "[[group]]\nname = \"quick\"\nid = 11\ninterval = 100\n"
    "[[group.writer]]\nname = \"quick_writer\"\nid = 21\ndataset = \"set\"\n"
    "[[group]]\nname = \"slow\"\nid = 12\ninterval = 250\nsecurity = \"sign\"\nkeygroup = \"keys\"\n"
    "[[group.writer]]\nname = \"slow_writer\"\nid = 22\ndataset = \"set\"\n";

static bool is_due(struct uap_handle *publisher, uint64_t now, uint64_t moment) {
    uint64_t told = ~moment;
    return uap_publisher_due(publisher, now, &told) == UAP_OK && told == moment;
}

static bool is_of(struct uap_handle *publisher, uint32_t group) {
    uint32_t told = ~group;
    return uap_publisher_group(publisher, &told) == UAP_OK && told == group;
}

// ---- moments

// A turn that was missed is due at once; so is a datagram that waits, and the moment of a key.
static void check_due(void) {
    struct uap_handle publisher = UAP_CLOSED_HANDLE;
    struct datagram datagram;
    uint8_t bytes[4];
    size_t length;
    uint32_t group = 77;
    DEMAND(uap_publisher_open(&publisher, grouped, sizeof grouped - 1) == UAP_OK);
    DEMAND(uap_publisher_group(&publisher, &group) == UAP_NONE && group == 77);
    DEMAND(is_due(&publisher, 0, 100) && is_due(&publisher, 100, 100) && is_due(&publisher, 130, 130));
    DEMAND(next(&publisher, 100, &datagram) == UAP_OK && is_of(&publisher, QUICK) && is_due(&publisher, 100, 200));
    DEMAND(next(&publisher, 230, &datagram) == UAP_OK && is_of(&publisher, QUICK) && is_due(&publisher, 230, 250));
    DEMAND(uap_publisher_next(&publisher, 250, bytes, sizeof bytes, &length) == UAP_ROOM && is_due(&publisher, 250, 250) && is_due(&publisher, 299, 299));
    DEMAND(next(&publisher, 250, &datagram) == UAP_OK && is_of(&publisher, SLOW) && is_due(&publisher, 250, 300));
    DEMAND(next(&publisher, 1000, &datagram) == UAP_OK && next(&publisher, 1000, &datagram) == UAP_OK && is_due(&publisher, 1000, 1020));
    DEMAND(next(&publisher, 1020, &datagram) == UAP_NONE && is_due(&publisher, 1020, 1100));
    DEMAND(uap_close(&publisher) == UAP_OK);
}

// ---- spent groups

static void check_spent(void) {
    struct uap_handle publisher = UAP_CLOSED_HANDLE;
    DEMAND(uap_publisher_open(&publisher, grouped, sizeof grouped - 1) == UAP_OK);
    DEMAND(uap_group_may_turn(&publisher, QUICK) == UAP_OK && uap_group_may_turn(&publisher, SLOW) == UAP_OK);
    DEMAND(uap_publisher_resume(&publisher, 0, 0, UINT32_MAX - 5) == UAP_OK);
    DEMAND(uap_group_may_turn(&publisher, QUICK) == UAP_OK && uap_group_may_turn(&publisher, SLOW) == UAP_SPENT);
    DEMAND(is_due(&publisher, 0, 100));
    DEMAND(uap_close(&publisher) == UAP_OK);
}

// ---- rows

static void check_rows(void) {
    struct uap_handle publisher = UAP_CLOSED_HANDLE;
    const struct uap_guid unit = {{1, 2, 3, 4, 5, 6, 7, 8, 9, 10, 11, 12, 13, 14, 15, 16}};
    struct uap_guid guid = {{0}};
    char text[16] = "as it was";
    uint32_t level = 77, status = 77;
    int16_t offset = 77;
    size_t length = 77;
    DEMAND(uap_publisher_open(&publisher, grouped, sizeof grouped - 1) == UAP_OK);
    DEMAND(uap_own_u32(&publisher, 0, 0, &level) == UAP_OK && level == 0 && uap_own_text(&publisher, 0, 1, text, 16, &length) == UAP_OK && length == 0);
    DEMAND(uap_set_u32(&publisher, 0, 0, 9) == UAP_OK && uap_set_text(&publisher, 0, 1, "four") == UAP_OK);
    DEMAND(uap_set_bytes(&publisher, 0, 2, "\1\0\2", 3) == UAP_OK && uap_set_guid(&publisher, 0, 3, &unit) == UAP_OK);
    DEMAND(uap_set_i16(&publisher, 0, 4, -2) == UAP_OK && uap_set_field_status(&publisher, 0, 4, 0x80310000u) == UAP_OK);
    DEMAND(uap_own_u32(&publisher, 0, 0, &level) == UAP_OK && level == 9 && uap_own_i16(&publisher, 0, 4, &offset) == UAP_OK && offset == -2);
    DEMAND(uap_own_text(&publisher, 0, 1, text, 3, &length) == UAP_ROOM && length == 4 && strcmp(text, "as it was") == 0);
    DEMAND(uap_own_text(&publisher, 0, 1, text, 4, &length) == UAP_OK && length == 4 && memcmp(text, "fourt was", 10) == 0);
    DEMAND(uap_own_bytes(&publisher, 0, 2, text, 16, &length) == UAP_OK && length == 3 && memcmp(text, "\1\0\2", 3) == 0);
    DEMAND(uap_own_guid(&publisher, 0, 3, &guid) == UAP_OK && memcmp(guid.bytes, unit.bytes, 16) == 0);
    DEMAND(uap_own_field_status(&publisher, 0, 4, &status) == UAP_OK && status == 0x80310000u);
    DEMAND(uap_own_field_status(&publisher, 0, 0, &status) == UAP_OK && status == 0);
    DEMAND(uap_own_i16(&publisher, 0, 0, &offset) == UAP_MISFIT && uap_own_guid(&publisher, 0, 0, &guid) == UAP_MISFIT && offset == -2);
    DEMAND(uap_own_text(&publisher, 0, 0, text, 16, &length) == UAP_MISFIT && uap_own_bytes(&publisher, 0, 1, text, 16, &length) == UAP_MISFIT);
    DEMAND(uap_close(&publisher) == UAP_OK);
}

void check_own(void) {
    check_due();
    check_spent();
    check_rows();
}
