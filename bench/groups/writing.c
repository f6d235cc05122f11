// Turns of a group of writers.
#include "plain.h"
#include <stdlib.h>
#include <string.h>

// A header without ExtendedFlags, ids and security, and what these add; what one chunk has before its data.
enum { HEADER = 7, EXTENDED = 1, SECURITY = 14, ONE_ID = 3, CHUNK_IDS = 4, CHUNK_FRONT = 14 };

static uint8_t *put16(uint8_t *at, uint16_t number) {
    memcpy(at, &number, 2);
    return at + 2;
}

static uint8_t *put32(uint8_t *at, uint32_t number) {
    memcpy(at, &number, 4);
    return at + 4;
}

// Little-endian, as the processor is.
static uint8_t *put_scalar(uint8_t *at, struct field field, uint64_t word) {
    switch (field.size) {
    case 1: *at = (uint8_t)word; return at + 1;
    case 2: return put16(at, (uint16_t)word);
    case 4: return put32(at, (uint32_t)word);
    default: memcpy(at, &word, 8); return at + 8;
    }
}

static uint8_t *put_value(uint8_t *at, const struct meta *meta, size_t i, const uint64_t *words) {
    uint64_t word = words[WORD_OF(meta, i)];
#ifdef TEXTS
    if (!meta->fields[i].size) {
        at = put32(at, (uint32_t)word);
        memcpy(at, words + WORD_OF(meta, i) + 1, word);
        return at + word;
    }
#endif
    return put_scalar(at, meta->fields[i], word);
}

// ---- frames

static uint8_t *put_front(uint8_t *at, const struct writer *writer, const struct meta *meta, uint8_t encoding, int kind) {
    *at++ = (uint8_t)(1 | encoding << 1 | 8 | (writer->versions ? 0x60 : 0) | (kind ? 0x80 : 0));
    if (kind) *at++ = (uint8_t)kind;
    at = put16(at, (uint16_t)(writer->first_number + writer->place));
    if (!writer->versions) return at;
    at = put32(at, meta->major);
    return put32(at, meta->minor);
}

static uint8_t *put_whole(uint8_t *at, const struct meta *meta, const uint64_t *words) {
    at = put16(at, (uint16_t)meta->count);
    for (size_t i = 0; i < meta->count; i++) {
        *at++ = meta->fields[i].type;
        at = put_value(at, meta, i, words);
    }
    return at;
}

static uint8_t *put_raw(uint8_t *at, const struct meta *meta, const uint64_t *words) {
    for (size_t i = 0; i < meta->count; i++) at = put_value(at, meta, i, words);
    return at;
}

static uint8_t *put_change(uint8_t *at, const struct meta *meta, const uint64_t *words, uint64_t mask) {
    at = put16(at, (uint16_t)__builtin_popcountll(mask));
    for (; mask; mask &= mask - 1) {
        size_t i = (size_t)__builtin_ctzll(mask);
        at = put16(at, (uint16_t)i);
        *at++ = meta->fields[i].type;
        at = put_value(at, meta, i, words);
    }
    return at;
}

static bool differs([[maybe_unused]] const struct meta *meta, size_t i, const uint64_t *old, const uint64_t *words) {
    size_t word = WORD_OF(meta, i);
#ifdef TEXTS
    if (!meta->fields[i].size) return old[word] != words[word] || memcmp(old + word + 1, words + word + 1, words[word]);
#endif
    return old[word] != words[word];
}

static uint64_t changed(const struct meta *meta, const uint64_t *old, const uint64_t *words) {
    uint64_t mask = 0;
    for (size_t i = 0; i < meta->count; i++) mask |= (uint64_t)differs(meta, i, old, words) << i;
    return mask;
}

static void keep(struct writer *writer, const struct meta *meta, uint64_t now, const uint64_t *words, uint64_t version) {
    memcpy(writer->row.words, words, 8 * WORDS_OF(meta));
    writer->log[writer->logged++] = (struct log_entry){writer->place, version};
    writer->place++;
    writer->sent_at = now;
}

// Spells the frame of the writer's turn, if it has one, and tells where it ends.
static uint8_t *answer(struct writer *writer, bool fixed, const struct meta *meta, uint64_t now, const uint64_t *words,
                       uint64_t version, bool closing, uint8_t *at) {
    if (writer->fresh || closing || writer->until_key == 0) {
        writer->fresh = false;
        writer->until_key = writer->key_frame_count - 1;
        at = put_front(at, writer, meta, fixed, 0);
        at = fixed ? put_raw(at, meta, words) : put_whole(at, meta, words);
        keep(writer, meta, now, words, version);
        return at;
    }
    writer->until_key--;
    if (memcmp(writer->row.words, words, 8 * WORDS_OF(meta))) {
        at = put_front(at, writer, meta, 0, 1);
        at = put_change(at, meta, words, changed(meta, writer->row.words, words));
        keep(writer, meta, now, words, version);
    } else if (writer->keep_alive && now - writer->sent_at >= writer->keep_alive) {
        at = put_front(at, writer, meta, 0, 3);
        writer->sent_at = now;
    }
    return at;
}

static void answer_all(struct group *group, const struct meta *metas, uint64_t now, const struct row *rows, uint64_t version,
                       const bool *on, bool closing) {
    uint8_t *at = group->bytes;
    group->frame_count = 0;
    for (size_t i = 0; i < group->writer_count; i++) {
        struct writer *writer = &group->writers[i];
        if (!on[i]) continue;
        uint16_t number = (uint16_t)(writer->first_number + writer->place);
        uint8_t *end = answer(writer, group->fixed, &metas[writer->dataset], now, rows[writer->dataset].words, version,
                              closing, at);
        if (end == at) continue;
        group->frames[group->frame_count++] = (struct frame){
            (uint16_t)i, writer->id, number, (uint16_t)(end - at), (uint32_t)(at - group->bytes)};
        at = end;
    }
}

// ---- datagrams

// The flags and the group's part of a header; `listed` is 0 where there are no ids, 1 where they are listed, 2 where there is a
// chunk's.
static uint8_t *put_header(struct group *group, uint8_t *at, int listed) {
    uint8_t extended = (uint8_t)((group->keys.mode ? 0x10 : 0) | (listed == 2 ? 0x80 : 0));
    *at++ = (uint8_t)(0x31 | (listed ? 0x40 : 0) | (extended ? 0x80 : 0));
    if (extended) *at++ = extended;
    if (listed == 2) *at++ = 1;
    *at++ = group->publisher;
    *at++ = 9;
    at = put16(at, group->id);
    return put16(at, group->sequence++);
}

static uint8_t *put_security(struct group *group, uint8_t *at) {
    if (!group->keys.mode) return at;
    *at++ = group->keys.mode == ENCRYPTED ? 3 : 1;
    at = put32(at, TOKEN);
    *at++ = 8;
    at = put32(at, 0);
    return put32(at, ++group->number);
}

static uint8_t *protect(struct group *group, uint8_t *start, uint8_t *payload, uint8_t *end) {
    if (!group->keys.mode) return end;
    if (group->keys.mode == ENCRYPTED) add_stream(&group->keys, payload - 8, payload, (size_t)(end - payload));
    sign(&group->keys, start, (size_t)(end - start), end);
    return end + SIGNATURE;
}

static uint8_t *finish(struct group *group, uint8_t *start, uint8_t *payload, uint8_t *end) {
    end = protect(group, start, payload, end);
    group->datagrams[group->datagram_count++] =
        (struct range){(uint32_t)(start - group->bytes), (uint32_t)(end - group->bytes)};
    return end;
}

static uint8_t *post_frames(struct group *group, uint8_t *start, size_t first, size_t count) {
    const struct frame *frames = group->frames + first;
    uint8_t *at = put_header(group, start, 1);
    *at++ = (uint8_t)count;
    for (size_t i = 0; i < count; i++) at = put16(at, frames[i].id);
    uint8_t *payload = at = put_security(group, at);
    if (count > 1)
        for (size_t i = 0; i < count; i++) at = put16(at, frames[i].size);
    // they stand one behind another
    const struct frame *last = &frames[count - 1];
    size_t length = last->start + last->size - frames->start;
    memcpy(at, group->bytes + frames->start, length);
    return finish(group, start, payload, at + length);
}

static uint8_t *post_chunk(struct group *group, uint8_t *start, const struct frame *frame, uint32_t offset, uint32_t length) {
    uint8_t *at = put_header(group, start, 2);
    at = put16(at, frame->id);
    uint8_t *payload = at = put_security(group, at);
    at = put16(at, frame->number);
    at = put32(at, offset);
    at = put32(at, frame->size);
    at = put32(at, length);
    memcpy(at, group->bytes + frame->start + offset, length);
    return finish(group, start, payload, at + length);
}

static uint8_t *post_chunks(struct group *group, uint8_t *start, const struct frame *frame, uint32_t room) {
    for (uint32_t offset = 0; offset < frame->size; offset += room) {
        uint32_t rest = frame->size - offset;
        start = post_chunk(group, start, frame, offset, rest < room ? rest : room);
    }
    return start;
}

// Frames share a datagram while they fit, each further one with its size and its id.
static void post_dynamic(struct group *group) {
    uint32_t security = group->keys.mode ? SECURITY + SIGNATURE : 0;
    uint32_t room = group->max_size - HEADER - (security ? EXTENDED : 0) - ONE_ID - security;
    uint32_t chunk_room = group->max_size - HEADER - CHUNK_IDS - CHUNK_FRONT - security;
    uint8_t *at = group->bytes + FRAMES_BYTES;
    for (size_t first = 0, count; first < group->frame_count; first += count) {
        uint32_t bytes = group->frames[first].size;
        count = 1;
        if (bytes > room) {
            at = post_chunks(group, at, &group->frames[first], chunk_room);
            continue;
        }
        while (first + count < group->frame_count) {
            uint32_t more = bytes + group->frames[first + count].size;
            if (2 * (count + 1) + more + 2 * count > room) break;
            bytes = more;
            count++;
        }
        at = post_frames(group, at, first, count);
    }
}

static void post_fixed(struct group *group) {
    uint8_t *start = group->bytes + FRAMES_BYTES;
    uint8_t *payload = put_security(group, put_header(group, start, 0));
    memset(payload, 0, (size_t)(start + group->slots_end - payload));
    for (size_t i = 0; i < group->frame_count; i++) {
        const struct frame *frame = &group->frames[i];
        memcpy(start + group->writers[frame->writer].offset, group->bytes + frame->start, frame->size);
    }
    finish(group, start, payload, start + group->slots_end);
}

__attribute__((noinline)) size_t take_turn(struct group *group, const struct meta *metas, uint64_t now,
                                           const struct row *rows, uint64_t version, const bool *on, bool closing) {
    answer_all(group, metas, now, rows, version, on, closing);
    group->datagram_count = 0;
    if (group->fixed)
        post_fixed(group);
    else
        post_dynamic(group);
    if (!closing) group->turned_at = now;
    return group->datagram_count;
}

// ---- opening

uint32_t slot_size(const struct session *session) { return (uint32_t)(3 + 4 * session->fields); }

uint32_t slot_offset(const struct session *session, size_t writer) {
    return (uint32_t)(session->mode ? HEADER + EXTENDED + SECURITY : HEADER) + (uint32_t)writer * slot_size(session);
}

void open_group(struct group *group, const struct session *session, size_t turns) {
    memset(group, 0, sizeof *group);
    group->publisher = 5;
    group->id = 1;
    group->fixed = session->fixed;
    group->max_size = session->max_size;
    group->writer_count = session->writers;
    group->slots_end = slot_offset(session, session->writers);
    group->bytes = calloc(BUFFER_BYTES, 1);
    key_contexts(&group->keys, session->mode);
    for (size_t i = 0; i < session->writers; i++) {
        struct writer *writer = &group->writers[i];
        writer->id = (uint16_t)(i + 1);
        writer->dataset = (uint8_t)(i % session->datasets);
        writer->fresh = true;
        writer->key_frame_count = session->key_frame_count;
        writer->offset = slot_offset(session, i);
        writer->size = slot_size(session);
        writer->log = malloc(turns * sizeof *writer->log);
    }
}

void close_group(struct group *group) {
    for (size_t i = 0; i < group->writer_count; i++) free(group->writers[i].log);
    free(group->bytes);
    free_contexts(&group->keys);
}
