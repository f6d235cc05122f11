// A link in memory, which keeps what was sent.
#ifndef MEMORY_LINK_H
#define MEMORY_LINK_H
#include "../groups/plain.h"
#include <stdlib.h>
#include <string.h>

static void open_link(void) {}

static uint8_t *sent;
static size_t sent_bytes, sent_room, sent_count, ranges_room, received_count;
static struct range *ranges;

static void make_room(void **at, size_t *room, size_t wanted, size_t size) {
    if (wanted <= *room) return;
    *room = wanted > 2 * *room ? wanted : 2 * *room;
    *at = realloc(*at, *room * size);
    if (!*at) exit(7);
}

static void put_on_link(const uint8_t *datagram, size_t length) {
    make_room((void **)&sent, &sent_room, sent_bytes + length, 1);
    make_room((void **)&ranges, &ranges_room, sent_count + 1, sizeof *ranges);
    memcpy(sent + sent_bytes, datagram, length);
    ranges[sent_count++] = (struct range){(uint32_t)sent_bytes, (uint32_t)(sent_bytes + length)};
    sent_bytes += length;
}

static size_t take_off_link(uint8_t *into) {
    if (received_count == sent_count) return 0;
    struct range range = ranges[received_count++];
    memcpy(into, sent + range.start, range.end - range.start);
    return range.end - range.start;
}
#endif
