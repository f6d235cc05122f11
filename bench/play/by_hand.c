// A session as one writes it by hand, over the groups of bench/groups: at each turn rows change, each group makes its datagrams, each
// goes over the link, which is LINK, by default one in memory, and each read group is given each datagram that comes, a copy but for
// the last one; a reader's row is stored where its number is another one, under a lock, since other threads may look at it. At the
// end it prints what each writer sent, as a report does.
// usage: by_hand built-in|device TURNS [TURNS_OF_A_KEY_FRAME]     (of the device's first group, by default 10)
#include "../groups/plain.h"
#ifdef LINK
#include LINK
#else
#include "memory_link.h"
#endif
#include <pthread.h>
#include <stdio.h>
#include <stdlib.h>
#include <string.h>

enum { RECEIVED_BYTES = 65536, STRING = 12, TEXT_CAP = 60 };

static struct meta metas[2];
static struct row rows[2], targets[3];
static struct group groups[2];
static struct read_group readers[3];
static size_t set_count, group_count, reader_count;
static uint64_t stores[3];
static uint16_t stored[3];
static bool on[MAX_WRITERS];
static pthread_mutex_t locks[3] = {PTHREAD_MUTEX_INITIALIZER, PTHREAD_MUTEX_INITIALIZER, PTHREAD_MUTEX_INITIALIZER};

// ---- turns and pumps

static void publish(uint64_t now, uint64_t version, bool closing) {
    for (size_t g = 0; g < group_count; g++) {
        take_turn(&groups[g], metas, now, rows, version, on, closing);
        for (size_t i = 0; i < groups[g].datagram_count; i++) {
            struct range range = groups[g].datagrams[i];
            put_on_link(groups[g].bytes + range.start, range.end - range.start);
        }
    }
}

static uint64_t pump(uint64_t now) {
    static uint8_t received[RECEIVED_BYTES], opened[RECEIVED_BYTES];
    struct taken taken;
    uint64_t count = 0;
    for (size_t length; (length = take_off_link(received)) > 0;)
        for (size_t r = 0; r < reader_count; r++) {
            bool last = r + 1 == reader_count;
            if (!last) memcpy(opened, received, length);
            count += take_datagram(&readers[r], metas, now, on, last ? received : opened, length, &taken) == TAKEN;
        }
    for (size_t r = 0; r < reader_count; r++) {
        const struct reader *reader = &readers[r].readers[0];
        if (!reader->holds || (stores[r] && stored[r] == reader->number)) continue;
        pthread_mutex_lock(&locks[r]);
        memcpy(targets[r].words, reader->row.words, 8 * WORDS_OF(&metas[reader->dataset]));
        pthread_mutex_unlock(&locks[r]);
        stored[r] = reader->number;
        stores[r]++;
    }
    return count;
}

// ---- opening

static void add_field(struct meta *meta, uint8_t type, uint8_t size, uint16_t cap) {
    meta->fields[meta->count++] = (struct field){type, size, cap, (uint16_t)meta->words};
    meta->words += size ? 1 : 1 + (cap + 7u) / 8;
}

static void add_set(size_t numbers, size_t texts) {
    struct meta *meta = &metas[set_count];
    meta->major = 1;
    for (size_t i = 0; i < numbers; i++) add_field(meta, UINT32, 4, 0);
    for (size_t i = 0; i < texts; i++) {
        uint64_t *words = rows[set_count].words + meta->words;
        *words = TEXT_CAP;
        memset(words + 1, 'x', TEXT_CAP);
        add_field(meta, STRING, 0, TEXT_CAP);
    }
    set_count++;
}

static void add_group(struct session session, uint8_t dataset, uint16_t id, size_t turns) {
    struct group *group = &groups[group_count++];
    open_group(group, &session, turns);
    group->id = group->writers[0].id = id;
    group->writers[0].dataset = dataset;
}

static void add_reader(struct session session, uint8_t dataset, uint8_t publisher, uint16_t id) {
    struct read_group *group = &readers[reader_count++];
    open_read_group(group, &session, id);
    group->publisher = publisher;
    group->ids[0] = id;
    group->readers[0].dataset = dataset;
}

static void open_built_in(size_t turns) {
    struct session session = {"", 4, 1, 1, 1, 1400, UNSECURED, false};
    add_set(4, 0);
    add_group(session, 0, 1, turns);
    add_reader(session, 0, 5, 1);
}

static void open_device(size_t turns, uint32_t key_frame_count) {
    struct session slow = {"", 40, 1, 1, key_frame_count, 1400, ENCRYPTED, false}, quick = {"", 8, 1, 1, 1, 1400, ENCRYPTED, true};
    add_set(38, 2);
    add_set(8, 0);
    add_group(slow, 0, 1, turns);
    add_group(quick, 1, 2, turns);
    add_reader(slow, 0, 22, 1);
    add_reader(slow, 0, 5, 1);
    add_reader(quick, 1, 5, 2);
}

// ---- the end

static char *put_decimal(char *at, uint64_t number) {
    char digits[20];
    size_t count = 0;
    do digits[count++] = (char)('0' + number % 10);
    while (number /= 10);
    while (count) *at++ = digits[--count];
    return at;
}

static void print_log(const struct writer *writer) {
    char *text = malloc(44 * writer->logged + 1), *at = text;
    for (size_t i = 0; i < writer->logged; i++) {
        *at++ = ' ';
        at = put_decimal(at, writer->log[i].place);
        *at++ = '=';
        at = put_decimal(at, writer->log[i].version);
    }
    fwrite(text, 1, (size_t)(at - text), stdout);
    putchar('\n');
    free(text);
}

int main(int argc, char **argv) {
    size_t turns = argc > 2 ? strtoul(argv[2], 0, 10) : 0;
    uint32_t key_frame_count = argc > 3 ? (uint32_t)strtoul(argv[3], 0, 10) : 10;
    uint64_t taken = 0;
    on[0] = true;
    open_link();
    if (argc > 1 && !strcmp(argv[1], "device"))
        open_device(turns + 1, key_frame_count);
    else
        open_built_in(turns + 1);
    size_t changes = 8 / set_count;
    for (size_t turn = 0; turn < turns; turn++) {
        for (size_t set = 0; set < set_count; set++)
            for (size_t i = 0; i < changes; i++) rows[set].words[i % 4] = (uint32_t)(~changes * turn - i);
        publish(1000 * (turn + 1), changes * (turn + 1), false);
        taken += pump(1000 * (turn + 1));
    }
    for (size_t g = 0; g < group_count; g++) print_log(&groups[g].writers[0]);
    printf("%zu datagrams sent, %llu taken, %zu bytes\n", sent_count, (unsigned long long)taken, sent_bytes);
    return 0;
}
