// A device that publishes a data set over UDP and reads the one of a peer, in C11 with nothing but POSIX and libuapubsub_c.a. It owns
// its socket, its clock and its loop: the library is told what time it is and which bytes came, and tells which bytes to send.
//
// usage: device CONFIG PORT PEER-PORT SECONDS [KEYS]     (both ports of 127.0.0.1)
//
// What it has used of its keys' numbers is kept in CONFIG.state, and it goes on after that (docs/KEYS.md). CONFIG.state.lock keeps a second
// device away. Its moments are milliseconds since 1970, so of the key sets of CONFIG the last one is in use.
//
// KEYS is a file of key sets in place of those of CONFIG, with a line for each: NAME TOKEN FROM SIGNING ENCRYPTING NONCE, the keys in
// hexadecimal digits. NAME is a key group that is published with, or a read group; its lines stand one behind another, the first from 0. Who
// fetches keys writes the file anew, by a rename. The device then goes on with them, also behind a restart.
#define _DEFAULT_SOURCE
#include "uapubsub.h"
#include "uapubsub_posix.h"
#include <inttypes.h>
#include <stdlib.h>

enum { TEXT_BYTES = 1 << 20, DATAGRAM_BYTES = 65536, KEYS_BYTES = 1 << 15, LINE_BYTES = 512, MOST_SETS = 16 };

// How long a round waits: at most the shortest interval of a group, since a turn whose time went by wholly is passed over. How many
// datagrams it receives at most: a peer that sends without a pause must not keep it from turns and timers. And how often it looks for keys.
enum { ROUND_MS = 10, MOST_A_ROUND = 64, KEYS_MS = 500 };

// How old the first reader's row may be where this device's machine runs, in milliseconds: with an older one, or none, it is in its safe state.
// A timeout alone doesn't do: where key frames are lost each other message begins it anew (docs/C.md).
enum { FRESH_MS = 1000 };

// How many numbers are stored ahead of those that are used: so many that readers of secured groups begin anew after a restart (docs/KEYS.md).
// The device stores anew where less than half of them are left, so that no datagram waits for the disk. And after how many datagrams it does
// in any case: message numbers are stored 8,192 ahead at most.
enum { AHEAD = 65536, STORE_EACH = 4096 };

// The fields that this device sets, where the first data set has them. Those that it shows of the first reader's row go by the same
// indexes, so the data set of that reader is the first one too. No data set has as many fields as NO_FIELD, an index that the library then
// refuses.
enum { LIFE, READING, CELSIUS, TAKEN_AT, COUNT, LABEL, FIELDS, NO_FIELD = UINT8_MAX };
static const char *const FIELD_NAMES[FIELDS] = {"life", "reading", "celsius", "taken_at", "count", "label"};

static const char USAGE[] = "the words are CONFIG PORT PEER-PORT SECONDS [KEYS]: a file, two ports from 1 to 65535, 1 to 1000000, and a file";

static char text[TEXT_BYTES], keys[KEYS_BYTES], new_keys[KEYS_BYTES];
static uint8_t datagram[DATAGRAM_BYTES];

// What became of datagrams: those of this device, and, by each read group, those that came. Some that are taken have messages that can't
// be read, as those of another data set.
struct counts {
    unsigned long sent, failed, taken, unreadable, others, refused;
    uint32_t last_refusal;
};

struct device {
    struct uap_handle publisher, subscriber;
    uint32_t field[FIELDS];
    struct uap_posix_udp udp;
    // the moment at which the system's clock that is never set back had 0
    uint64_t epoch_ms;
    // the file of the state, how many datagrams were sent since it was written, and whether it was said that too few numbers are left
    char state[UAP_POSIX_NAME_ROOM];
    uint32_t since;
    bool spent;
    // the file of keys, if there is one, how much of it was read last, and when it is looked at again
    const char *keys;
    size_t keys_length;
    uint64_t keys_ms;
    // the name of the first reader
    char reader[UAP_NAME_ROOM];
    // the line that was printed last, and the status that the machine goes by, none before the first round: it runs with UAP_OK alone
    char shown[LINE_BYTES];
    uint32_t fresh;
    struct counts counts;
};

static _Noreturn void fail(const char *why) {
    fprintf(stderr, "device: %s\n", why);
    exit(1);
}

static void demand(bool is_so, const char *else_said) {
    if (!is_so) fail(else_said);
}

// Milliseconds since 1970, by the clock that is never set back while the device runs.
static uint64_t now_ms(const struct device *device) {
    return device->epoch_ms + uap_posix_now_ms();
}

// ---- opening

// A word as a number from 1 to `most`. Anything else is refused, the port 0 too, which would be any port.
static uint32_t number_of(const char *word, long most) {
    char *rest;
    long number = strtol(word, &rest, 10);
    demand(word[0] >= '0' && word[0] <= '9' && *rest == '\0' && number >= 1 && number <= most, USAGE);
    return (uint32_t)number;
}

// Opens both sides, or says what is wrong with the configuration, as `uapubsub check` does.
static void open_sides(struct device *device, const char *name) {
    char line[256];
    size_t written, length;
    int failed = uap_posix_read(name, text, sizeof text, &length);
    demand(failed != EFBIG, "the configuration is too long");
    demand(failed == 0, "cannot read the configuration");
    if (uap_config_check(text, length, line, sizeof line, &written) == UAP_REFUSED) {
        fprintf(stderr, "%.*s\n", (int)written, line);
        exit(3);
    }
    demand(uap_publisher_open(&device->publisher, text, length) == UAP_OK, "cannot open the publisher");
    demand(uap_subscriber_open(&device->subscriber, text, length) == UAP_OK, "cannot open the subscriber");
    if (uap_reader_name(&device->subscriber, 0, 0, device->reader, sizeof device->reader) != UAP_OK) strcpy(device->reader, "no reader");
    for (int i = 0; i < FIELDS; i++)
        if (uap_field_index(&device->publisher, 0, FIELD_NAMES[i], &device->field[i]) != UAP_OK) device->field[i] = NO_FIELD;
}

// ---- keys

// The bytes that a text spells in hexadecimal digits, and how many; 0 where it spells none, or more than there is room for.
static size_t spelled(const char *digits, uint8_t *bytes, size_t room) {
    size_t count = strlen(digits) / 2;
    if (strlen(digits) % 2 != 0 || count > room || strspn(digits, "0123456789abcdefABCDEF") != 2 * count) return 0;
    for (size_t i = 0; i < count; i++) {
        unsigned byte;
        if (sscanf(digits + 2 * i, "%2x", &byte) != 1) return 0;
        bytes[i] = (uint8_t)byte;
    }
    return count;
}

// The key set of a line, and the name in front of it.
static bool is_key_set(const char *line, char name[UAP_NAME_ROOM], struct uap_key_set *set) {
    char signing[80], encrypting[80], nonce[16], more;
    memset(set, 0, sizeof *set);
    if (sscanf(line, "%32s %" SCNu32 " %" SCNu64 " %79s %79s %15s %c", name, &set->token, &set->from_ms, signing, encrypting, nonce, &more) != 6) return false;
    size_t length = spelled(encrypting, set->encrypting, sizeof set->encrypting);
    return spelled(signing, set->signing, sizeof set->signing) == 32 && (length == 16 || length == 32) && spelled(nonce, set->nonce, sizeof set->nonce) == 4;
}

// The key group or the read group of this name goes on with these key sets. One of them has to be there.
static bool is_renewed(struct device *device, const char *name, const struct uap_key_set *sets, size_t count) {
    uint32_t index, published = UAP_INDEX, read = UAP_INDEX;
    if (count == 0) return true;
    if (uap_keygroup_index(&device->publisher, name, &index) == UAP_OK) published = uap_publisher_renew(&device->publisher, index, sets, count);
    if (uap_read_group_index(&device->subscriber, name, &index) == UAP_OK) read = uap_subscriber_renew(&device->subscriber, index, sets, count);
    return (published == UAP_OK || read == UAP_OK) && (published == UAP_OK || published == UAP_INDEX) && (read == UAP_OK || read == UAP_INDEX);
}

// The lines of keys, each group's as one ring.
static bool are_renewed(struct device *device, char *lines) {
    struct uap_key_set sets[MOST_SETS], set;
    char name[UAP_NAME_ROOM] = "", next[UAP_NAME_ROOM];
    size_t count = 0;
    for (char *line = strtok(lines, "\n"); line != NULL; line = strtok(NULL, "\n")) {
        if (!is_key_set(line, next, &set)) return false;
        if (strcmp(name, next) != 0) {
            if (!is_renewed(device, name, sets, count)) return false;
            strcpy(name, next);
            count = 0;
        }
        if (count == MOST_SETS) return false;
        sets[count++] = set;
    }
    return is_renewed(device, name, sets, count);
}

// Goes on with the keys of the file where it is another than before. False: it can't be read, or isn't what it has to be. That is said, and the
// keys stay that the device has.
static bool renew(struct device *device, uint64_t now) {
    size_t length;
    if (device->keys == NULL || now < device->keys_ms) return true;
    device->keys_ms = now + KEYS_MS;
    if (uap_posix_read(device->keys, new_keys, sizeof new_keys - 1, &length) == 0 && length > 0) {
        if (length == device->keys_length && memcmp(keys, new_keys, length) == 0) return true;
        memcpy(keys, new_keys, length);
        new_keys[length] = '\0';
        device->keys_length = length;
        if (are_renewed(device, new_keys)) return true;
    }
    fprintf(stderr, "device: cannot take the keys of %s\n", device->keys);
    return false;
}

// ---- numbers that are never used twice

// Has the disk keep what this device has used, and a reserve, before any of that is sent. A crash leaves the old file or the new one.
static void store(struct device *device) {
    uint8_t bytes[UAP_STATE_BYTES];
    size_t length;
    demand(uap_publisher_save(&device->publisher, AHEAD, bytes, sizeof bytes, &length) == UAP_OK, "cannot save the state");
    demand(uap_posix_write(device->state, bytes, length, 0600) == 0, "cannot store the state");
    demand(uap_publisher_stored(&device->publisher) == UAP_OK, "cannot save the state");
    device->since = 0;
}

// Goes on after all that a life before may have used. A file that can't be read is not one that isn't there.
static void restore(struct device *device, const char *config) {
    char lock[UAP_POSIX_NAME_ROOM];
    uint8_t bytes[UAP_STATE_BYTES];
    size_t length;
    demand(snprintf(device->state, sizeof device->state, "%s.state", config) < (int)sizeof device->state, "the configuration's name is too long");
    demand(snprintf(lock, sizeof lock, "%s.lock", device->state) < (int)sizeof lock, "the configuration's name is too long");
    demand(uap_posix_lock(lock) == 0, "cannot lock the state: another device may use it");
    int failed = uap_posix_read(device->state, bytes, sizeof bytes, &length);
    demand(failed == 0 || failed == ENOENT || failed == EFBIG, "cannot read the state");
    uint32_t status = failed == 0 ? uap_publisher_restore(&device->publisher, now_ms(device), bytes, length) : failed == EFBIG ? UAP_DAMAGED : UAP_OK;
    demand(status != UAP_DAMAGED, "the file of the state is damaged: give the key groups later tokens, and remove it");
    demand(status != UAP_OTHER_CONFIG, "the state is of another configuration: give the key groups new keys, and remove it");
    demand(status != UAP_LATER_TOKEN, "the state has a later token than the keys of this moment: is the clock set back?");
    demand(status == UAP_OK, "cannot go on after the state");
    store(device);
}

// ---- publishing

// A field that the data set doesn't have is passed over.
static void demand_set(uint32_t status) {
    demand(status == UAP_OK || status == UAP_INDEX, "a field isn't of the kind that this device sets");
}

// What a device would read from its sensors.
static void sample(struct device *device, uint64_t now) {
    struct uap_handle *publisher = &device->publisher;
    const uint32_t *field = device->field;
    char celsius[24];
    snprintf(celsius, sizeof celsius, "%.1f C", 20 + (double)(now % 1000) / 100);
    demand_set(uap_set_u32(publisher, 0, field[LIFE], 1));
    demand_set(uap_set_u32(publisher, 0, field[READING], (uint32_t)(now / 50 % 1000000)));
    demand_set(uap_set_text(publisher, 0, field[CELSIUS], celsius));
    demand_set(uap_set_date_time(publisher, 0, field[TAKEN_AT], (int64_t)now * 10000 + 116444736000000000));
    demand_set(uap_set_u32(publisher, 0, field[COUNT], (uint32_t)(now / 100 % 1000000)));
    demand_set(uap_set_text(publisher, 0, field[LABEL], "from C"));
}

// Sends what is due. A datagram that the system doesn't take is lost, as it may be on its way, and its number is used all the same:
// readers go on with the next key frame.
static void publish(struct device *device, uint64_t now) {
    size_t length;
    uint32_t status;
    if (device->since >= STORE_EACH || uap_publisher_must_store(&device->publisher) == UAP_OK) store(device);
    while ((status = uap_publisher_next(&device->publisher, now, datagram, sizeof datagram, &length)) == UAP_OK || status == UAP_UNSTORED) {
        device->since += status == UAP_OK;
        if (status == UAP_UNSTORED) store(device);
        else if (uap_posix_send(&device->udp, datagram, length) == 0) device->counts.sent++;
        else device->counts.failed++;
    }
    demand(status == UAP_NONE || status == UAP_SPENT, "cannot publish");
    if (status == UAP_SPENT && !device->spent) fprintf(stderr, "device: the token has no numbers left: give the key group a later one\n");
    if (status == UAP_SPENT) device->spent = true;
}

// ---- subscribing

// Counts what a read group answered.
static void count(struct counts *counts, const struct uap_answer *answer) {
    if (answer->status == UAP_OK) counts->taken++;
    if (answer->status == UAP_OK && answer->taken.bad > 0) counts->unreadable++;
    if (answer->status == UAP_NOT_OURS) counts->others++;
    if (answer->status < UAP_HEADER_SHORT || answer->status == UAP_NOT_OURS) return;
    counts->refused++;
    counts->last_refusal = answer->status;
}

static void receive(struct device *device, uint64_t now) {
    struct uap_takings takings;
    size_t length;
    for (int i = 0; i < MOST_A_ROUND && uap_posix_receive(&device->udp, datagram, sizeof datagram, &length) == 0; i++) {
        demand(uap_subscriber_take(&device->subscriber, now, datagram, length, &takings) == UAP_OK, "cannot subscribe");
        for (int group = 0; group < 4; group++) count(&device->counts, &takings.groups[group]);
    }
    demand(uap_subscriber_expire(&device->subscriber, now) == UAP_OK, "cannot subscribe");
}

// Has the machine run while the first reader's row is fresh, and takes it to its safe state where it isn't.
static void steer(struct device *device, uint64_t now) {
    uint32_t fresh = uap_reader_is_fresh(&device->subscriber, 0, 0, now, FRESH_MS);
    if (fresh == device->fresh) return;
    device->fresh = fresh;
    if (fresh == UAP_OK) puts("the machine runs");
    else printf("the machine is in its safe state: %s of %s\n", uap_status_name(fresh), device->reader);
}

// Prints the row that the first reader holds, or why it holds none (UAP_WHY_..), where that isn't what was printed last.
static void show(struct device *device) {
    struct uap_handle *subscriber = &device->subscriber;
    uint16_t number = 0;        // stays 0 where messages carry none
    uint32_t why, reading;
    char celsius[256], line[LINE_BYTES] = "";
    size_t length;
    if (uap_reader_why(subscriber, 0, 0, &why) == UAP_NONE) snprintf(line, sizeof line, "no row: %s", uap_why_name(why));
    uap_reader_number(subscriber, 0, 0, &number);
    if (uap_get_u32(subscriber, 0, 0, device->field[READING], &reading) == UAP_OK &&
        uap_get_text(subscriber, 0, 0, device->field[CELSIUS], celsius, sizeof celsius, &length) == UAP_OK)
        snprintf(line, sizeof line, "message %u: reading %" PRIu32 ", %.*s", number, reading, (int)length, celsius);
    if (line[0] == '\0' || strcmp(line, device->shown) == 0) return;
    puts(line);
    strcpy(device->shown, line);
}

// ---- the loop

static void run(struct device *device, uint64_t until) {
    for (uint64_t now = now_ms(device); now < until;) {
        int waited = uap_posix_wait(&device->udp, uap_posix_now_ms() + ROUND_MS);
        demand(waited == 0 || waited == EINTR, "cannot wait");
        now = now_ms(device);
        renew(device, now);
        receive(device, now);
        steer(device, now);
        show(device);
        sample(device, now);
        publish(device, now);
    }
}

int main(int count, char **words) {
    struct device device = {.publisher = UAP_CLOSED_HANDLE, .subscriber = UAP_CLOSED_HANDLE, .fresh = UINT32_MAX};
    const struct counts *counts = &device.counts;
    demand(count == 5 || count == 6, USAGE);
    uint32_t port = number_of(words[2], 65535), peer = number_of(words[3], 65535), seconds = number_of(words[4], 1000000);
    device.epoch_ms = uap_posix_epoch_ms();
    device.keys = words[5];
    open_sides(&device, words[1]);
    demand(uap_posix_udp_open(&device.udp, "127.0.0.1", (uint16_t)port, "127.0.0.1", (uint16_t)peer, 0) == 0, "cannot open the port");
    if (!renew(&device, now_ms(&device))) exit(1);
    restore(&device, words[1]);
    setvbuf(stdout, NULL, _IOLBF, 0);
    run(&device, now_ms(&device) + (uint64_t)seconds * 1000);
    printf("sent %lu, failed %lu, taken %lu, unreadable %lu, not ours %lu, refused %lu (last reason %s)\n", counts->sent, counts->failed,
           counts->taken, counts->unreadable, counts->others, counts->refused, uap_status_name(counts->last_refusal));
    uap_close(&device.publisher);
    uap_close(&device.subscriber);
    uap_posix_udp_close(&device.udp);
    return 0;
}
