/* What a datagram of a flood costs a subscriber with four read groups, two of them signed: handed to each read group in a copy of its own, as a program
 * did before there was uap_subscriber_take, and handed to all by that call. A kind of datagram is timed by rounds of so many, the best of several.
 *
 * usage: flood [ROUNDS] [DATAGRAMS] */
#include <inttypes.h>
#include <stdio.h>
#include <stdlib.h>
#include <string.h>
#include <time.h>
#include <uapubsub.h>

#define FIELD(name) "{name = '" name "', kind = 'String', cap = 184}"
#define SIGNED "key = [{token = 1, from = 0, signing = '000102030405060708090a0b0c0d0e0f101112131415161718191a1b1c1d1e1f', encrypting = '202122232425262728292a2b2c2d2e2f', nonce = '30313233'}]"

static const char configuration[] =
    "publisher = {id = 'u16:2234'}\n"
    "dataset = [{name = 'press', field = [" FIELD("a") ", " FIELD("b") ", " FIELD("c") ", " FIELD("d") ", " FIELD("e") "]}]\n"
    "keygroup = [{name = 'line', policy = 'aes128', random = '01020304', " SIGNED "}]\n"
    "group = [{name = 'open', id = 1, interval = 100, writer = [{name = 'w', id = 10, dataset = 'press'}]}, "
    "{name = 'closed', id = 2, interval = 100, keygroup = 'line', security = 'encrypt', writer = [{name = 'v', id = 20, dataset = 'press'}]}]\n"
    "readgroup = ["
    "{name = 'a', publisher = 'u16:2234', group = 1, reader = [{name = 'r1', writer = 10, dataset = 'press'}]}, "
    "{name = 'b', publisher = 'u16:2235', group = 1, reader = [{name = 'r2', writer = 10, dataset = 'press'}]}, "
    "{name = 'c', publisher = 'u16:2234', group = 2, keygroup = 'line', security = 'encrypt', reader = [{name = 'r3', writer = 20, dataset = 'press'}]}, "
    "{name = 'd', publisher = 'u16:2236', group = 2, keygroup = 'line', security = 'encrypt', reader = [{name = 'r4', writer = 20, dataset = 'press'}]}]\n";

struct datagram {
    uint8_t bytes[1400];
    size_t length;
};

static double now_ns(void) {
    struct timespec now;
    clock_gettime(CLOCK_MONOTONIC, &now);
    return 1e9 * (double)now.tv_sec + (double)now.tv_nsec;
}

static void must(uint32_t status, const char *what) {
    if (status == UAP_OK) return;
    fprintf(stderr, "flood: %s: %s\n", what, uap_status_name(status));
    exit(1);
}

/* Each read group has a copy of its own. */
static uint32_t by_copies(struct uap_handle *subscriber, const struct datagram *datagram) {
    uint32_t took = 0;
    for (uint32_t group = 0; group < 4; group++) {
        uint8_t copy[1400];
        struct uap_taken taken;
        memcpy(copy, datagram->bytes, datagram->length);
        took += uap_subscriber_datagram(subscriber, group, 1, copy, datagram->length, &taken) == UAP_OK;
    }
    return took;
}

static uint32_t by_take(struct uap_handle *subscriber, const struct datagram *datagram) {
    struct uap_takings takings;
    must(uap_subscriber_take(subscriber, 1, datagram->bytes, datagram->length, &takings), "take");
    return takings.took;
}

/* Nanoseconds of a datagram, the best of so many rounds, and how many read groups took the last one. */
static double best(uint32_t (*hand)(struct uap_handle *, const struct datagram *), struct uap_handle *subscriber, const struct datagram *datagram, int rounds, int count, uint32_t *took) {
    double least = 1e18;
    for (int round = 0; round < rounds; round++) {
        double begun = now_ns();
        for (int i = 0; i < count; i++) *took = hand(subscriber, datagram);
        double each = (now_ns() - begun) / count;
        if (each < least) least = each;
    }
    return least;
}

static void measure(const char *name, struct uap_handle *subscriber, const struct datagram *datagram, int rounds, int count) {
    uint32_t copied = 0, took = 0;
    double copies = best(by_copies, subscriber, datagram, rounds, count, &copied), take = best(by_take, subscriber, datagram, rounds, count, &took);
    printf("%-52s %5zu bytes  %7.0f ns by copies (%" PRIu32 " took it)  %7.0f ns by take (%" PRIu32 ")\n", name, datagram->length, copies, copied, take, took);
}

int main(int words, char **word) {
    int rounds = words > 1 ? atoi(word[1]) : 7, count = words > 2 ? atoi(word[2]) : 100000;
    struct uap_handle publisher = UAP_CLOSED_HANDLE, subscriber = UAP_CLOSED_HANDLE;
    must(uap_publisher_open(&publisher, configuration, sizeof configuration - 1), "publisher");
    must(uap_subscriber_open(&subscriber, configuration, sizeof configuration - 1), "subscriber");
    char text[185] = {0};
    memset(text, 'x', sizeof text - 1);
    for (uint32_t field = 0; field < 5; field++) must(uap_set_text(&publisher, 0, field, text), "set");
    struct datagram sent[2], garbage = {.length = 1000}, other, forged;
    for (int i = 0; i < 2; i++) must(uap_publisher_next(&publisher, 100, sent[i].bytes, sizeof sent[i].bytes, &sent[i].length), "next");
    srand(1);
    for (size_t i = 0; i < garbage.length; i++) garbage.bytes[i] = (uint8_t)rand();
    other = sent[0];
    other.bytes[2] ^= 0x40; /* another PublisherId */
    forged = sent[1];
    forged.bytes[forged.length - 1] ^= 1; /* the signature doesn't fit */
    measure("random bytes", &subscriber, &garbage, rounds, count);
    measure("of a publisher whom nobody asks for", &subscriber, &other, rounds, count);
    measure("signed, with a signature that doesn't fit", &subscriber, &forged, rounds, count);
    measure("one that a read group takes, unsecured", &subscriber, &sent[0], rounds, count);
    measure("signed and encrypted, which came before", &subscriber, &sent[1], rounds, count);
    must(uap_close(&publisher), "close");
    must(uap_close(&subscriber), "close");
    return 0;
}
