// Turns through the door beside the same turns that libbench_groups.a makes within one call: the configuration, the rows and the datagrams are
// those of bench/groups. It prints the least time of a turn of many runs, less that of opening, and ends with status 1 where the last
// datagrams differ. Behind the door each field that changes is set by a call, which libbench_groups.a doesn't: the time of these calls is told
// beside.
#include "uapubsub.h"
#include <stdio.h>
#include <stdlib.h>
#include <time.h>

// Of the crate bench_groups.
uint64_t bench_turns(const uint8_t *config, size_t config_length, uint8_t changes, uint16_t turns, uint8_t *last, size_t last_length);

enum { ROUNDS = 200, TURNS = 2000, FIELDS = 20, INTERVAL = 100, TEXT_BYTES = 65536, LAST_BYTES = 8192, BUFFER_BYTES = 65536, MOST = 64, CHANGED = 7 };

struct session {
    const char *name;
    size_t datasets, writers;
};

// Of a run with turns and of one without, the least.
struct least {
    double turns, none;
};

static char text[TEXT_BYTES];
static size_t length;
static uint8_t buffer[BUFFER_BYTES], ours[LAST_BYTES], theirs[LAST_BYTES];

#define ADD(...) (length += (size_t)snprintf(text + length, TEXT_BYTES - length, __VA_ARGS__))

static void configure(const struct session *session, unsigned key_frame_count) {
    length = 0;
    ADD("[publisher]\nid = \"u8:5\"\n");
    for (size_t set = 0; set < session->datasets; set++) {
        ADD("[[dataset]]\nname = \"d%zu\"\n", set);
        for (size_t field = 0; field < FIELDS; field++) ADD("[[dataset.field]]\nname = \"f%zu\"\nkind = \"UInt32\"\n", field);
    }
    ADD("[[group]]\nname = \"g\"\nid = 1\ninterval = %d\nmax_size = 1400\n", INTERVAL);
    for (size_t writer = 0; writer < session->writers; writer++)
        ADD("[[group.writer]]\nname = \"w%zu\"\nid = %zu\ndataset = \"d%zu\"\nkey_frame_count = %u\n", writer + 1, writer + 1,
            writer % session->datasets, key_frame_count);
}

static double now(void) {
    struct timespec t;
    clock_gettime(CLOCK_MONOTONIC, &t);
    return (double)t.tv_sec * 1e9 + (double)t.tv_nsec;
}

static void keep_least(double *least, double start) {
    double took = now() - start;
    if (*least == 0 || took < *least) *least = took;
}

static void fail(const char *why) {
    fprintf(stderr, "turns: %s\n", why);
    exit(1);
}

static void set(struct uap_handle *publisher, size_t dataset, size_t field, uint32_t value) {
    if (uap_set_u32(publisher, (uint8_t)dataset, (uint8_t)field, value) != UAP_OK) fail("cannot set");
}

// The middle field of each data set, where rows change.
static void change(struct uap_handle *publisher, const struct session *session, size_t index) {
    for (size_t dataset = 0; dataset < session->datasets; dataset++) set(publisher, dataset, FIELDS / 2, index % 2 ? CHANGED : 0);
}

static size_t tick(struct uap_handle *publisher, size_t index) {
    size_t lengths[MOST], count, bytes = 0;
    if (uap_publisher_tick(publisher, (uint64_t)INTERVAL * (index + 1), buffer, BUFFER_BYTES, lengths, MOST, &count) != UAP_NONE) fail("cannot publish");
    for (size_t i = 0; i < count; i++) bytes += lengths[i];
    return bytes;
}

// So many turns and one more, or only what they set. The datagrams of the last one are laid into `ours`.
static void run(const struct session *session, bool changes, bool ticks, size_t turns) {
    struct uap_handle publisher = UAP_CLOSED_HANDLE;
    size_t bytes = 0;
    if (uap_publisher_open(&publisher, text, length) != UAP_OK) fail("cannot open");
    for (size_t dataset = 0; dataset < session->datasets; dataset++)
        for (size_t field = 0; field < FIELDS; field++) set(&publisher, dataset, field, field == FIELDS / 2 ? 0 : 0xff000000u | (uint32_t)field);
    for (size_t index = 0; index <= turns; index++) {
        if (changes) change(&publisher, session, index);
        if (ticks) bytes = tick(&publisher, index);
    }
    memset(ours, 0, LAST_BYTES);
    memcpy(ours, buffer, bytes < LAST_BYTES ? bytes : LAST_BYTES);
    uap_close(&publisher);
}

static void time_run(const struct session *session, bool changes, bool ticks, size_t turns, struct least *least) {
    double start = now();
    run(session, changes, ticks, turns);
    keep_least(turns ? &least->turns : &least->none, start);
}

static void time_bench(bool changes, size_t turns, struct least *least) {
    memset(theirs, 0, LAST_BYTES);
    double start = now();
    if (bench_turns((const uint8_t *)text, length, changes, (uint16_t)turns, theirs, LAST_BYTES) == 0 && turns) fail("nothing is measured");
    keep_least(turns ? &least->turns : &least->none, start);
}

static double of_a_turn(const struct least *least) {
    return (least->turns - least->none) / TURNS;
}

static void measure(const struct session *session, unsigned key_frame_count, bool changes, const char *what) {
    struct least door = {0, 0}, sets = {0, 0}, bench = {0, 0};
    configure(session, key_frame_count);
    for (int round = 0; round < ROUNDS; round++)
        for (size_t turns = 0; turns <= TURNS; turns += TURNS) {
            time_bench(changes, turns, &bench);
            time_run(session, changes, false, turns, &sets);
            time_run(session, changes, true, turns, &door);
            if (memcmp(ours, theirs, LAST_BYTES)) fail("the datagrams differ");
        }
    printf("%-24s %-12s %8.1f ns a turn through the door, %8.1f of them for setting; bench_groups %8.1f ns\n", session->name, what, of_a_turn(&door),
           changes ? of_a_turn(&sets) : 0, of_a_turn(&bench));
}

int main(void) {
    static const struct session sessions[] = {{"1 writer of 20 fields", 1, 1}, {"16 writers of 20 fields", 8, 16}};
    for (size_t i = 0; i < 2; i++) {
        measure(&sessions[i], 1, false, "key frames");
        measure(&sessions[i], 65535, true, "delta frames");
        measure(&sessions[i], 65535, false, "quiet");
    }
    return 0;
}
