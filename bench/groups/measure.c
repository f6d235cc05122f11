// Times the turns and the datagrams of libbench_groups.a beside a publisher and a subscriber by hand, in turns, and prints the
// least time of each. Opening is taken off: a call without turns is timed too. Both sides must make the same datagrams and
// come to the same rows, and neither may allocate after opening. With words ROW here|by-hand all|none it makes the calls of one
// row on one side, or opens alone, for a tool that counts instructions, and prints the row's name and how many calls it has;
// status 2: there is no such row.
#include "plain.h"
#include <stdio.h>
#include <stdlib.h>
#include <string.h>
#include <time.h>

// Of this repository.
uint64_t bench_turns(const uint8_t *config, size_t config_length, uint8_t changes, uint16_t turns, uint8_t *last,
                     size_t last_length);
uint64_t bench_datagrams(const uint8_t *config, size_t config_length, const uint32_t *ends, size_t count, uint8_t *datagrams,
                         size_t length);

enum { ROUNDS = 200, MOST_TURNS = 2000, LAST_BYTES = 8192, TEXT_BYTES = 65536, MOST_READ = 5000, READ_BYTES = 1 << 20 };

// ---- allocations, counted

static uint64_t allocations;

void *__real_malloc(size_t size);
void *__real_calloc(size_t count, size_t size);
void *__real_realloc(void *old, size_t size);
void *__real_aligned_alloc(size_t alignment, size_t size);
int __real_posix_memalign(void **at, size_t alignment, size_t size);

void *__wrap_malloc(size_t size) {
    allocations++;
    return __real_malloc(size);
}

void *__wrap_calloc(size_t count, size_t size) {
    allocations++;
    return __real_calloc(count, size);
}

void *__wrap_realloc(void *old, size_t size) {
    allocations++;
    return __real_realloc(old, size);
}

void *__wrap_aligned_alloc(size_t alignment, size_t size) {
    allocations++;
    return __real_aligned_alloc(alignment, size);
}

int __wrap_posix_memalign(void **at, size_t alignment, size_t size) {
    allocations++;
    return __real_posix_memalign(at, alignment, size);
}

// ---- times

// Of a call with turns and of one without, the least.
struct least {
    double turns, none;
};

struct sides {
    struct least ours, by_hand;
};

static double now(void) {
    struct timespec t;
    clock_gettime(CLOCK_MONOTONIC, &t);
    return t.tv_sec * 1e9 + t.tv_nsec;
}

static void keep_least(double *least, double start) {
    double took = now() - start;
    if (*least == 0 || took < *least) *least = took;
}

static void fail(const char *name, const char *why) {
    printf("%s: %s\n", name, why);
    exit(1);
}

static void print(const char *name, const char *what, const char *unit, size_t count, const struct sides *sides) {
    double ours = (sides->ours.turns - sides->ours.none) / count;
    double by_hand = (sides->by_hand.turns - sides->by_hand.none) / count;
    printf("%-32s %-12s %8.1f ns a %s, by hand %8.1f ns, ratio %.2f\n", name, what, ours, unit, by_hand, by_hand / ours);
}

// ---- the configuration of a session

static char text[TEXT_BYTES];
static size_t text_length;

#define ADD(...) (text_length += (size_t)snprintf(text + text_length, TEXT_BYTES - text_length, __VA_ARGS__))

static void add_hex(const char *key, int first, int count) {
    ADD("%s = \"", key);
    for (int i = 0; i < count; i++) ADD("%02x", first + i);
    ADD("\"\n");
}

static void add_security(const struct session *session) {
    const char *modes[] = {"none", "sign", "encrypt"};
    ADD("layout = \"%s\"\nsecurity = \"%s\"\n", session->fixed ? "fixed" : "dynamic", modes[session->mode]);
    if (session->mode) ADD("keygroup = \"k\"\n");
}

static void add_writer(const struct session *session, size_t writer, const char *kind) {
    ADD("[[%s]]\nname = \"%c%zu\"\ndataset = \"d%zu\"\n", kind, kind[0], writer + 1, writer % session->datasets);
    if (session->fixed) ADD("offset = %u\nsize = %u\n", slot_offset(session, writer), slot_size(session));
}

static void add_sets(const struct session *session) {
    for (size_t set = 0; set < session->datasets; set++) {
        ADD("[[dataset]]\nname = \"d%zu\"\n", set);
        for (size_t field = 0; field < session->fields; field++)
            ADD("[[dataset.field]]\nname = \"f%zu\"\nkind = \"UInt32\"\n", field);
    }
}

static void write_config(const struct session *session, uint16_t read_id) {
    text_length = 0;
    ADD("[publisher]\nid = \"u8:5\"\n");
    add_sets(session);
    if (session->mode) {
        ADD("[[keygroup]]\nname = \"k\"\npolicy = \"aes128\"\nrandom = \"00000000\"\n");
        ADD("[[keygroup.key]]\ntoken = 1\nfrom = 0\nnonce = \"33333333\"\n");
        add_hex("signing", 0, 32);
        add_hex("encrypting", 64, 16);
    }
    ADD("[[group]]\nname = \"g\"\nid = 1\ninterval = 100\nmax_size = %u\n", session->max_size);
    add_security(session);
    for (size_t writer = 0; writer < session->writers; writer++) {
        add_writer(session, writer, "group.writer");
        ADD("id = %zu\nkey_frame_count = %u\n", writer + 1, session->key_frame_count);
    }
    ADD("[[readgroup]]\nname = \"r\"\npublisher = \"u8:5\"\ngroup = %u\n", read_id);
    add_security(session);
    for (size_t reader = 0; reader < session->writers; reader++) {
        add_writer(session, reader, "readgroup.reader");
        ADD("writer = %zu\n", reader + 1);
    }
}

// ---- turns by hand

static struct group group;
static struct meta metas[MAX_DATASETS];
static struct row even[MAX_DATASETS], odd[MAX_DATASETS];
static bool on[MAX_WRITERS];

static void set_rows(const struct session *session, bool changes) {
    memset(even, 0, sizeof even);
    for (size_t set = 0; set < session->datasets; set++) {
        metas[set] = (struct meta){.count = session->fields, .major = 1};
        for (size_t i = 0; i < session->fields; i++) {
            metas[set].fields[i] = (struct field){UINT32, 4};
            even[set].words[i] = 0xff000000 | i;
        }
        even[set].words[session->fields / 2] = 0;
        odd[set] = even[set];
        if (changes) odd[set].words[session->fields / 2] = 7;
    }
    for (size_t i = 0; i < MAX_WRITERS; i++) on[i] = true;
}

static size_t turn_by_hand(size_t index) {
    return take_turn(&group, metas, 100 * index, index % 2 ? odd : even, 1, on, false);
}

static size_t lay(uint8_t *bytes, size_t room) {
    size_t at = 0;
    for (size_t i = 0; i < group.datagram_count; i++) {
        size_t size = group.datagrams[i].end - group.datagrams[i].start;
        if (size > room - at) break;
        memcpy(bytes + at, group.bytes + group.datagrams[i].start, size);
        at += size;
    }
    return at;
}

static uint64_t turns_by_hand(const struct session *session, bool changes, size_t turns, uint8_t *last, size_t *length) {
    uint64_t made = 0;
    set_rows(session, changes);
    open_group(&group, session, turns + 1);
    for (size_t index = 0; index <= turns; index++) made += turn_by_hand(index);
    *length = lay(last, LAST_BYTES);
    close_group(&group);
    return made;
}

static void time_turns(const struct session *session, bool changes, size_t turns, struct sides *sides) {
    static uint8_t ours[LAST_BYTES], by_hand[LAST_BYTES];
    size_t length;
    memset(ours, 0, LAST_BYTES);
    memset(by_hand, 0, LAST_BYTES);
    double start = now();
    uint64_t made = bench_turns((const uint8_t *)text, text_length, changes, (uint16_t)turns, ours, LAST_BYTES);
    keep_least(turns ? &sides->ours.turns : &sides->ours.none, start);
    start = now();
    uint64_t made_by_hand = turns_by_hand(session, changes, turns, by_hand, &length);
    keep_least(turns ? &sides->by_hand.turns : &sides->by_hand.none, start);
    if (!made) fail(session->name, "nothing is measured");
    if (made != made_by_hand || memcmp(ours, by_hand, LAST_BYTES)) fail(session->name, "the datagrams differ");
}

static void count_turns(const struct session *session, bool changes) {
    static uint8_t last[LAST_BYTES];
    uint64_t before = allocations;
    bench_turns((const uint8_t *)text, text_length, changes, 0, last, LAST_BYTES);
    uint64_t opening = allocations - before;
    before = allocations;
    bench_turns((const uint8_t *)text, text_length, changes, 1000, last, LAST_BYTES);
    if (allocations - before != opening) fail(session->name, "a turn allocates");
    if (!opening) fail(session->name, "opening doesn't allocate");
}

static void measure_turns(const struct session *session, bool changes, const char *what, size_t turns) {
    struct sides sides = {0};
    count_turns(session, changes);
    for (int round = 0; round < ROUNDS; round++) {
        time_turns(session, changes, 0, &sides);
        time_turns(session, changes, turns, &sides);
    }
    print(session->name, what, "turn", turns, &sides);
}

// ---- datagrams

static uint32_t ends[MOST_READ];
static uint8_t sealed[READ_BYTES], opened[READ_BYTES];
static size_t datagram_count;

// All datagrams of turns by hand, one behind another.
static void make_datagrams(const struct session *session, size_t turns) {
    size_t at = 0;
    datagram_count = 0;
    set_rows(session, true);
    open_group(&group, session, turns);
    for (size_t index = 0; index < turns; index++) {
        turn_by_hand(index);
        for (size_t i = 0; i < group.datagram_count; i++) {
            size_t size = group.datagrams[i].end - group.datagrams[i].start;
            memcpy(sealed + at, group.bytes + group.datagrams[i].start, size);
            at += size;
            ends[datagram_count++] = (uint32_t)at;
        }
    }
    close_group(&group);
}

// The first datagram again and again.
static void repeat_first(size_t count) {
    size_t size = ends[0];
    for (size_t i = 1; i < count; i++) {
        memcpy(sealed + i * size, sealed, size);
        ends[i] = (uint32_t)((i + 1) * size);
    }
    datagram_count = count;
}

static uint64_t words_held(const struct read_group *readers) {
    uint64_t sum = 0;
    for (size_t i = 0; i < readers->reader_count; i++)
        for (size_t word = 0; readers->readers[i].holds && word < WORDS; word++) sum += readers->readers[i].row.words[word];
    return sum;
}

static uint64_t datagrams_by_hand(const struct session *session, uint16_t read_id, size_t count) {
    static struct read_group readers;
    struct taken taken;
    uint64_t sum = 0;
    size_t start = 0;
    open_read_group(&readers, session, read_id);
    for (size_t i = 0; i < count; start = ends[i++]) {
        if (take_datagram(&readers, metas, 100 * (i + 1), on, opened + start, ends[i] - start, &taken))
            sum += (uint64_t)1 << 32;
        else
            sum += taken.matched;
    }
    sum += words_held(&readers);
    close_read_group(&readers);
    return sum;
}

static void time_datagrams(const struct session *session, uint16_t read_id, size_t count, struct sides *sides) {
    size_t length = ends[datagram_count - 1];
    memcpy(opened, sealed, length);
    double start = now();
    uint64_t sum = bench_datagrams((const uint8_t *)text, text_length, ends, count, opened, length);
    keep_least(count ? &sides->ours.turns : &sides->ours.none, start);
    memcpy(opened, sealed, length);
    start = now();
    uint64_t by_hand = datagrams_by_hand(session, read_id, count);
    keep_least(count ? &sides->by_hand.turns : &sides->by_hand.none, start);
    if (count && !sum) fail(session->name, "nothing is measured");
    if (sum != by_hand) fail(session->name, "the readers differ");
}

static void count_datagrams(const struct session *session) {
    memcpy(opened, sealed, ends[datagram_count - 1]);
    uint64_t before = allocations;
    bench_datagrams((const uint8_t *)text, text_length, ends, 0, opened, ends[datagram_count - 1]);
    uint64_t opening = allocations - before;
    before = allocations;
    bench_datagrams((const uint8_t *)text, text_length, ends, datagram_count, opened, ends[datagram_count - 1]);
    if (allocations - before != opening) fail(session->name, "a datagram allocates");
    if (!opening) fail(session->name, "opening doesn't allocate");
}

static void measure_datagrams(const struct session *session, uint16_t read_id, const char *what) {
    struct sides sides = {0};
    count_datagrams(session);
    for (int round = 0; round < ROUNDS; round++) {
        time_datagrams(session, read_id, 0, &sides);
        time_datagrams(session, read_id, datagram_count, &sides);
    }
    print(session->name, what, "datagram", datagram_count, &sides);
}

// ---- what is measured

static const struct session one = {"1 writer of 20 fields", 20, 1, 1, 1, 1400, UNSECURED, false};
static const struct session one_secret = {"1 writer of 20, encrypted", 20, 1, 1, 1, 1400, ENCRYPTED, false};
static const struct session many = {"16 writers of 20 fields", 20, 8, 16, 1, 1400, UNSECURED, false};
static const struct session secret = {"16 writers of 20, encrypted", 20, 8, 16, 1, 1400, ENCRYPTED, false};
static const struct session fixed = {"4 fixed writers of 10 fields", 10, 4, 4, 1, 1400, UNSECURED, true};
static const struct session chunked = {"1 writer of 64 fields, chunks", 64, 1, 1, 1, 150, UNSECURED, false};

enum kind { TURNS, DATAGRAMS, OF_ANOTHER, AGAIN };

// Turns, or the datagrams of so many turns.
struct measured {
    const struct session *session;
    enum kind kind;
    uint32_t key_frame_count;
    bool changes;
    const char *what;
    size_t turns;
};

static const struct measured rows[] = {
    {&one, TURNS, 1, false, "key frames", MOST_TURNS},
    {&one, TURNS, 65535, true, "delta frames", MOST_TURNS},
    {&one, TURNS, 65535, false, "quiet", MOST_TURNS},
    {&many, TURNS, 1, false, "key frames", MOST_TURNS / 2},
    {&many, TURNS, 65535, true, "delta frames", MOST_TURNS / 2},
    {&many, TURNS, 65535, false, "quiet", MOST_TURNS / 2},
    {&secret, TURNS, 1, false, "key frames", MOST_TURNS / 10},
    {&secret, TURNS, 65535, true, "delta frames", MOST_TURNS / 10},
    {&secret, TURNS, 65535, false, "quiet", MOST_TURNS / 10},
    {&fixed, TURNS, 1, false, "key frames", MOST_TURNS},
    {&chunked, TURNS, 1, false, "key frames", MOST_TURNS},
    {&one, DATAGRAMS, 1, true, "key frames", MOST_READ},
    {&one, DATAGRAMS, 65535, true, "delta frames", MOST_READ},
    {&many, DATAGRAMS, 1, true, "key frames", MOST_READ / 10},
    {&many, DATAGRAMS, 65535, true, "delta frames", MOST_READ / 10},
    {&secret, DATAGRAMS, 1, true, "key frames", MOST_READ / 20},
    {&secret, DATAGRAMS, 65535, true, "delta frames", MOST_READ / 20},
    {&fixed, DATAGRAMS, 1, true, "key frames", MOST_READ},
    {&chunked, DATAGRAMS, 1, true, "key frames", MOST_READ / 5},
    {&one, OF_ANOTHER, 1, true, "not ours", MOST_READ},
    {&one_secret, OF_ANOTHER, 1, true, "not ours", MOST_READ},
    {&one_secret, AGAIN, 1, true, "repeated", MOST_READ},
};

enum { ROWS = sizeof rows / sizeof rows[0] };

static uint16_t read_id(const struct measured *row) { return row->kind == OF_ANOTHER ? 2 : 1; }

// The session of the row, its configuration, and the datagrams that are read.
static struct session prepared(const struct measured *row) {
    struct session session = *row->session;
    session.key_frame_count = row->key_frame_count;
    write_config(&session, read_id(row));
    if (row->kind != TURNS) make_datagrams(&session, row->turns);
    if (row->kind == AGAIN) repeat_first(MOST_READ / 5);
    return session;
}

static void measure(const struct measured *row) {
    struct session session = prepared(row);
    if (row->kind == TURNS)
        measure_turns(&session, row->changes, row->what, row->turns);
    else
        measure_datagrams(&session, read_id(row), row->what);
}

static void call(const struct measured *row, bool by_hand, bool all) {
    static uint8_t last[LAST_BYTES];
    struct session session = prepared(row);
    size_t calls = row->kind == TURNS ? row->turns : datagram_count, count = all ? calls : 0, length;
    memcpy(opened, sealed, READ_BYTES);
    if (row->kind == TURNS && by_hand)
        turns_by_hand(&session, row->changes, count, last, &length);
    else if (row->kind == TURNS)
        bench_turns((const uint8_t *)text, text_length, row->changes, (uint16_t)count, last, LAST_BYTES);
    else if (by_hand)
        datagrams_by_hand(&session, read_id(row), count);
    else
        bench_datagrams((const uint8_t *)text, text_length, ends, count, opened, ends[datagram_count - 1]);
    printf("%s, %s, a %s: %zu\n", session.name, row->what, row->kind == TURNS ? "turn" : "datagram", calls);
}

int main(int argc, char **argv) {
    if (argc == 4) {
        size_t row = strtoul(argv[1], 0, 10);
        if (row >= ROWS) return 2;
        call(&rows[row], !strcmp(argv[2], "by-hand"), !strcmp(argv[3], "all"));
        return 0;
    }
    for (size_t row = 0; row < ROWS; row++) measure(&rows[row]);
    return 0;
}
