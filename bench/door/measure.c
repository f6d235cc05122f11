// What a publisher takes in memory, and how long its calls take: 16 writers, each of a data set of 16 fields, in one group. It prints the
// bytes and the calls of malloc, and the least time of many turns; no turn may allocate.
#include "uapubsub.h"
#include <malloc.h>
#include <stdio.h>
#include <stdlib.h>
#include <time.h>

enum { SETS = 8, WRITERS = 16, FIELDS = 16, TURNS = 20000, TEXT_BYTES = 65536, DATAGRAM_BYTES = 65536 };

static size_t allocations, taken;

void *__real_malloc(size_t size);
void *__real_realloc(void *old, size_t size);
int __real_posix_memalign(void **at, size_t alignment, size_t size);
void *__real_aligned_alloc(size_t alignment, size_t size);

void *__wrap_malloc(size_t size) {
    allocations++;
    taken += size;
    return __real_malloc(size);
}

void *__wrap_realloc(void *old, size_t size) {
    allocations++;
    taken += size;
    return __real_realloc(old, size);
}

void *__wrap_aligned_alloc(size_t alignment, size_t size) {
    allocations++;
    taken += size;
    return __real_aligned_alloc(alignment, size);
}

int __wrap_posix_memalign(void **at, size_t alignment, size_t size) {
    allocations++;
    taken += size;
    return __real_posix_memalign(at, alignment, size);
}

static char text[TEXT_BYTES];
static size_t length;

#define ADD(...) (length += (size_t)snprintf(text + length, TEXT_BYTES - length, __VA_ARGS__))

static void configure(void) {
    ADD("[publisher]\nid = \"u8:21\"\n");
    for (int set = 0; set < SETS; set++) {
        ADD("[[dataset]]\nname = \"d%d\"\n", set);
        for (int field = 0; field < FIELDS; field++) ADD("[[dataset.field]]\nname = \"f%d\"\nkind = \"UInt32\"\n", field);
    }
    ADD("[[group]]\nname = \"g\"\nid = 7\ninterval = 1\n");
    for (int writer = 0; writer < WRITERS; writer++)
        ADD("[[group.writer]]\nname = \"w%d\"\nid = %d\ndataset = \"d%d\"\nkey_frame_count = 65535\n", writer, writer + 1, writer % SETS);
}

static double now(void) {
    struct timespec t;
    clock_gettime(CLOCK_MONOTONIC, &t);
    return (double)t.tv_sec * 1e9 + (double)t.tv_nsec;
}

static void fail(const char *why) {
    fprintf(stderr, "measure: %s\n", why);
    exit(1);
}

// One turn in which one field of each data set changed; the bytes that it made.
static size_t turn(struct uap_handle *publisher, uint64_t moment, uint8_t *buffer) {
    size_t count, bytes = 0;
    uint32_t status;
    for (uint8_t set = 0; set < SETS; set++)
        if (uap_set_u32(publisher, set, 0, (uint32_t)moment) != UAP_OK) fail("cannot set");
    while ((status = uap_publisher_next(publisher, moment, buffer, DATAGRAM_BYTES, &count)) == UAP_OK) bytes += count;
    if (status != UAP_NONE) fail("cannot publish");
    return bytes;
}

int main(void) {
    struct uap_handle publisher = UAP_CLOSED_HANDLE;
    static uint8_t buffer[DATAGRAM_BYTES];
    double least = 0;
    size_t bytes = 0, opened;
    configure();
    const size_t before = mallinfo2().uordblks + mallinfo2().hblkhd;
    if (uap_publisher_open(&publisher, text, length) != UAP_OK) fail("cannot open");
    const size_t held = mallinfo2().uordblks + mallinfo2().hblkhd - before;
    printf("a publisher with %d writers holds %zu bytes; opening it takes memory %zu times, %zu bytes in all\n", WRITERS, held, allocations, taken);
    opened = allocations;
    for (uint64_t moment = 1; moment <= TURNS; moment++) {
        double start = now();
        bytes = turn(&publisher, moment, buffer);
        double took = now() - start;
        if (moment > 1 && (least == 0 || took < least)) least = took;
    }
    if (allocations != opened) fail("a turn allocated");
    printf("a turn of %d writers, one field of each of %d data sets set before: %.0f ns, %zu bytes sent\n", WRITERS, SETS, least, bytes);
    return uap_close(&publisher) == UAP_OK ? 0 : 1;
}
