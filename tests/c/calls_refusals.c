// Why a datagram is refused, what is told of one that is taken, and why a reader waits. docs/WIRE.md has the bytes and the refusals.
#include "calls.h"

enum { OPEN, SIGNED };

static const char heard[] =
    "[publisher]\nid = \"u8:5\"\n"
    "[[dataset]]\nname = \"set\"\n"
    "[[dataset.field]]\nname = \"level\"\nkind = \"UInt32\"\n"
    "[[keygroup]]\nname = \"keys\"\npolicy = \"aes128\"\nrandom = \"00000000\"\n" SHORT_SET("1", "0", "a") SHORT_SET("2", "10000", "b")
    "[[group]]\nname = \"signed_group\"\nid = 1\ninterval = 100\nsecurity = \"sign\"\nkeygroup = \"keys\"\n"
    "[[group.writer]]\nname = \"writer\"\nid = 1\ndataset = \"set\"\nkey_frame_count = 1000\n"
    "[[readgroup]]\nname = \"open_peer\"\npublisher = \"u8:5\"\ngroup = 1\n"
    "[[readgroup.reader]]\nname = \"first\"\nwriter = 1\ndataset = \"set\"\n"
    "[[readgroup.reader]]\nname = \"second\"\nwriter = 2\ndataset = \"set\"\n"
    "[[readgroup]]\nname = \"signed_peer\"\npublisher = \"u8:5\"\ngroup = 1\nsecurity = \"sign\"\nkeygroup = \"keys\"\n"
    "[[readgroup.reader]]\nname = \"third\"\nwriter = 1\ndataset = \"set\"\n";

// A key frame with the number 0, whose one field is 7, and headers in front of one of the writer 1.
#define FRAME "09 00 00 01 00 07 07 00 00 00 "
#define PLAIN "71 05 09 01 00 00 00 01 01 00 "
#define SECURED "f1 10 05 09 01 00 00 00 01 01 00 "
#define TOKEN(token) token " 00 00 00 08 00 00 00 00 01 00 00 00 "
#define ZEROS31 "00 00 00 00 00 00 00 00 00 00 00 00 00 00 00 00 00 00 00 00 00 00 00 00 00 00 00 00 00 00 00 "

// ---- datagrams that are refused whatever came before

static const struct {
    uint32_t status;
    uint32_t group;
    const char *text;
} refused[] = {
    {UAP_HEADER_SHORT, OPEN, ""},
    {UAP_HEADER_SHORT, OPEN, "71 05 09 01 00 00 00 01 01"},
    {UAP_VERSION, OPEN, "72 05 09 01 00 00 00 01 01 00 " FRAME},
    {UAP_DISCOVERY, OPEN, "81 80 04"},
    {UAP_PUBLISHER_TYPE, OPEN, "91 05"},
    {UAP_RESERVED, OPEN, "81 80 0c"},
    {UAP_RESERVED, OPEN, "71 05 19 01 00 00 00 01 01 00 " FRAME},
    {UAP_PUBLISHER_ID, OPEN, "91 04 fe ff ff ff"},
    {UAP_NOT_OURS, OPEN, "71 06 09 01 00 00 00 01 01 00 " FRAME},
    {UAP_NOT_OURS, OPEN, "71 05 09 02 00 00 00 01 01 00 " FRAME},
    {UAP_NOT_OURS, SIGNED, "71 05 09 02 00 00 00 01 01 00 " FRAME},
    {UAP_NO_IDS, OPEN, "31 05 09 01 00 00 00 " FRAME},
    {UAP_SIZES, OPEN, "71 05 09 01 00 00 00 02 01 00 02 00 0a 00 ff 00 " FRAME},
    {UAP_MODE, SIGNED, PLAIN FRAME},
    {UAP_MODE, OPEN, SECURED "01 " TOKEN("01") ZEROS31 "00"},
    {UAP_MODE, SIGNED, SECURED "03 " TOKEN("01") ZEROS31 "00"},
    {UAP_FOOTER, SIGNED, SECURED "05 " TOKEN("01") "00 00 " ZEROS31 "00"},
    {UAP_KEY_RESET, SIGNED, SECURED "09 " TOKEN("01") ZEROS31 "00"},
    {UAP_NONCE, SIGNED, SECURED "01 01 00 00 00 07 00 00 00 00 01 00 00 " ZEROS31 "00"},
    {UAP_NO_SIGNATURE, SIGNED, SECURED "01 " TOKEN("01") ZEROS31},
    {UAP_UNKNOWN_TOKEN, SIGNED, SECURED "01 " TOKEN("03") ZEROS31 "00"},
    {UAP_SIGNATURE, SIGNED, SECURED "01 " TOKEN("01") ZEROS31 "00"},
};

static void check_refused(void) {
    struct uap_handle subscriber = UAP_CLOSED_HANDLE;
    DEMAND(uap_subscriber_open(&subscriber, heard, sizeof heard - 1) == UAP_OK);
    for (size_t i = 0; i < sizeof refused / sizeof *refused; i++) {
        struct datagram datagram = spelled(refused[i].text);
        uint32_t status = answer(&subscriber, refused[i].group, 10, &datagram);
        if (status != refused[i].status) fprintf(stderr, "%s is answered %u\n", refused[i].text, status);
        DEMAND(status == refused[i].status);
    }
    DEMAND(waits(&subscriber, OPEN, UAP_WHY_START) && waits(&subscriber, SIGNED, UAP_WHY_START));
    DEMAND(uap_close(&subscriber) == UAP_OK);
}

// ---- what is told of a datagram that is taken

static bool tells(struct uap_handle *subscriber, const struct datagram *datagram, uint32_t parts, uint32_t matched, uint32_t bad) {
    struct uap_taken taken = {99, 99, 99};
    return give(subscriber, OPEN, 10, datagram, &taken) == UAP_OK && taken.parts == parts && taken.matched == matched && taken.bad == bad;
}

static void check_counts(void) {
    struct uap_handle subscriber = UAP_CLOSED_HANDLE;
    struct datagram datagram = spelled(PLAIN FRAME);
    uint16_t number = 99;
    DEMAND(uap_subscriber_open(&subscriber, heard, sizeof heard - 1) == UAP_OK);
    for (size_t length = 0; length < 20; length++) {
        datagram.length = length;
        DEMAND(length < 10 ? answer(&subscriber, OPEN, 10, &datagram) == UAP_HEADER_SHORT : tells(&subscriber, &datagram, 1, 1, 1));
    }
    DEMAND(waits(&subscriber, OPEN, UAP_WHY_START) && uap_reader_number(&subscriber, OPEN, 0, &number) == UAP_NONE);
    // three messages, of which the second reader's is an Int32 and nobody reads the third
    datagram = spelled("71 05 09 01 00 00 00 03 01 00 02 00 03 00 0a 00 0a 00 0a 00 " FRAME "09 00 00 01 00 06 07 00 00 00 " FRAME);
    DEMAND(tells(&subscriber, &datagram, 3, 2, 1) && reads(&subscriber, OPEN, 7));
    DEMAND(uap_reader_number(&subscriber, OPEN, 0, &number) == UAP_OK && number == 0);
    DEMAND(uap_reader_number(&subscriber, OPEN, 1, &number) == UAP_NONE);
    datagram = spelled(PLAIN "89 01 01 00 01 00 00 00 07 08 00 00 00");
    DEMAND(tells(&subscriber, &datagram, 1, 1, 0) && reads(&subscriber, OPEN, 8));
    DEMAND(uap_reader_number(&subscriber, OPEN, 0, &number) == UAP_OK && number == 1);
    DEMAND(uap_close(&subscriber) == UAP_OK);
}

// ---- datagrams that are refused for what came before, and why a reader waits

// The next datagram, with this level.
static void sent(struct uap_handle *publisher, uint64_t now, uint32_t level, struct datagram *datagram) {
    DEMAND(uap_set_u32(publisher, 0, 0, level) == UAP_OK && next(publisher, now, datagram) == UAP_OK);
}

// The next datagram has a key frame.
static void sent_anew(struct uap_handle *publisher, uint64_t now, uint32_t level, struct datagram *datagram) {
    DEMAND(uap_writer_enable(publisher, 0, 0) == UAP_OK);
    sent(publisher, now, level, datagram);
}

static void check_old(void) {
    struct uap_handle publisher = UAP_CLOSED_HANDLE, subscriber = UAP_CLOSED_HANDLE;
    struct datagram early[5], late[3];
    open_sides(&publisher, &subscriber, heard);
    for (uint32_t i = 1; i < 5; i++) sent(&publisher, 100 * i, i, &early[i]);
    DEMAND(takes(&subscriber, SIGNED, 400, &early[1]) && reads(&subscriber, SIGNED, 1) && has_waited(&subscriber, SIGNED, UAP_WHY_START));
    DEMAND(answer(&subscriber, SIGNED, 400, &early[1]) == UAP_REPEATED && reads(&subscriber, SIGNED, 1));
    // the number 1026 is 1,024 above 2
    DEMAND(uap_publisher_resume(&publisher, 0, 400, 1025) == UAP_OK);
    sent(&publisher, 500, 5, &late[0]);
    DEMAND(takes(&subscriber, SIGNED, 500, &late[0]) && waits(&subscriber, SIGNED, UAP_WHY_GAP));
    DEMAND(answer(&subscriber, SIGNED, 500, &early[1]) == UAP_TOO_OLD && answer(&subscriber, SIGNED, 500, &early[2]) == UAP_TOO_OLD);
    DEMAND(takes(&subscriber, SIGNED, 500, &early[3]) && waits(&subscriber, SIGNED, UAP_WHY_GAP));
    sent_anew(&publisher, 600, 6, &late[0]);
    DEMAND(takes(&subscriber, SIGNED, 600, &late[0]) && reads(&subscriber, SIGNED, 6) && has_waited(&subscriber, SIGNED, UAP_WHY_GAP));
    // the second token's first datagram has a key frame, and is lost
    sent(&publisher, 10000, 7, &late[1]);
    sent(&publisher, 10100, 8, &late[2]);
    DEMAND(takes(&subscriber, SIGNED, 10100, &late[2]) && waits(&subscriber, SIGNED, UAP_WHY_NEW_TOKEN));
    DEMAND(answer(&subscriber, SIGNED, 10100, &early[4]) == UAP_OLD_TOKEN && waits(&subscriber, SIGNED, UAP_WHY_NEW_TOKEN));
    sent_anew(&publisher, 10200, 9, &late[2]);
    DEMAND(takes(&subscriber, SIGNED, 10200, &late[2]) && reads(&subscriber, SIGNED, 9) && has_waited(&subscriber, SIGNED, UAP_WHY_NEW_TOKEN));
    close_sides(&publisher, &subscriber);
}

// A number 16,384 above the one before is a jump, and none below.
static void check_jump(void) {
    struct uap_handle publisher = UAP_CLOSED_HANDLE, subscriber = UAP_CLOSED_HANDLE;
    struct datagram datagram;
    open_sides(&publisher, &subscriber, heard);
    sent(&publisher, 100, 1, &datagram);
    DEMAND(takes(&subscriber, SIGNED, 100, &datagram) && reads(&subscriber, SIGNED, 1));
    DEMAND(uap_publisher_resume(&publisher, 0, 100, 16383) == UAP_OK);
    sent(&publisher, 200, 2, &datagram);
    DEMAND(takes(&subscriber, SIGNED, 200, &datagram) && reads(&subscriber, SIGNED, 2) && has_waited(&subscriber, SIGNED, UAP_WHY_START));
    DEMAND(uap_publisher_resume(&publisher, 0, 200, 2 * 16384 - 1) == UAP_OK);
    sent(&publisher, 300, 3, &datagram);
    DEMAND(takes(&subscriber, SIGNED, 300, &datagram) && waits(&subscriber, SIGNED, UAP_WHY_JUMP));
    sent_anew(&publisher, 400, 4, &datagram);
    DEMAND(takes(&subscriber, SIGNED, 400, &datagram) && reads(&subscriber, SIGNED, 4) && has_waited(&subscriber, SIGNED, UAP_WHY_JUMP));
    close_sides(&publisher, &subscriber);
}

void check_refusals(void) {
    check_refused();
    check_counts();
    check_old();
    check_jump();
}
