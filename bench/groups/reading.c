// Datagrams that a read group takes.
#include "plain.h"
#include <openssl/crypto.h>
#include <stdlib.h>
#include <string.h>

struct cursor {
    const uint8_t *at, *end;
};

static uint16_t get16(const uint8_t *at) {
    uint16_t number;
    memcpy(&number, at, 2);
    return number;
}

static uint32_t get32(const uint8_t *at) {
    uint32_t number;
    memcpy(&number, at, 4);
    return number;
}

// The next bytes, or null where there aren't so many.
static const uint8_t *next(struct cursor *cursor, size_t count) {
    if ((size_t)(cursor->end - cursor->at) < count) return 0;
    cursor->at += count;
    return cursor->at - count;
}

// ---- headers

struct header {
    uint8_t flags, extended1, extended2, parts, security_flags, nonce_length, id_count;
    uint16_t group, sequence, chunk;
    uint32_t version, token;
    uint64_t publisher;
    const uint8_t *text, *ids, *nonce, *class_id;
    uint32_t text_length;
};

static bool read_flags(struct cursor *cursor, struct header *header) {
    const uint8_t *at;
    if (!(at = next(cursor, 1)) || (*at & 15) != 1) return false;
    header->flags = *at;
    if (header->flags & 0x80) {
        if (!(at = next(cursor, 1)) || (*at & 7) > 4) return false;
        header->extended1 = *at;
    }
    if (header->extended1 & 0x80) {
        if (!(at = next(cursor, 1)) || *at & 0xfc || (*at & 1 && !(header->flags & 0x40))) return false;
        header->extended2 = *at;
    }
    return true;
}

static bool read_publisher(struct cursor *cursor, struct header *header) {
    int type = header->extended1 & 7;
    const uint8_t *at;
    if (!(header->flags & 0x10)) return true;
    if (type < 4) {
        if (!(at = next(cursor, (size_t)1 << type))) return false;
        memcpy(&header->publisher, at, (size_t)1 << type);
        return true;
    }
    if (!(at = next(cursor, 4)) || (int32_t)get32(at) < -1) return false;
    header->text_length = (int32_t)get32(at) < 0 ? 0 : get32(at);
    return (header->text = next(cursor, header->text_length)) != 0;
}

static bool read_group_part(struct cursor *cursor, struct header *header) {
    const uint8_t *at;
    if (header->extended1 & 8 && !(header->class_id = next(cursor, 16))) return false;
    if (!(header->flags & 0x20)) return true;
    if (!(at = next(cursor, 1)) || *at & 0xf0) return false;
    header->parts = *at;
    if (header->parts & 1) {
        if (!(at = next(cursor, 2))) return false;
        header->group = get16(at);
    }
    if (header->parts & 2) {
        if (!(at = next(cursor, 4))) return false;
        header->version = get32(at);
    }
    if (header->parts & 4 && !next(cursor, 2)) return false;
    if (header->parts & 8) {
        if (!(at = next(cursor, 2))) return false;
        header->sequence = get16(at);
    }
    return true;
}

static bool read_ids(struct cursor *cursor, struct header *header) {
    const uint8_t *at;
    if (!(header->flags & 0x40)) return true;
    if (header->extended2 & 1) {
        if (!(at = next(cursor, 2))) return false;
        header->chunk = get16(at);
        return true;
    }
    if (!(at = next(cursor, 1))) return false;
    header->id_count = *at;
    return (header->ids = next(cursor, 2 * (size_t)header->id_count)) != 0;
}

static bool read_extras(struct cursor *cursor, struct header *header) {
    const uint8_t *at;
    if (header->extended1 & 0x20 && !next(cursor, 8)) return false;
    if (header->extended1 & 0x40 && !next(cursor, 2)) return false;
    if (header->extended2 & 2 && (!(at = next(cursor, 2)) || !next(cursor, get16(at)))) return false;
    if (!(header->extended1 & 0x10)) return true;
    if (!(at = next(cursor, 6)) || *at & 0xf0) return false;
    header->security_flags = *at;
    header->token = get32(at + 1);
    header->nonce_length = at[5];
    if (!(header->nonce = next(cursor, header->nonce_length))) return false;
    return !(header->security_flags & 4) || next(cursor, 2);
}

static bool read_header(struct cursor *cursor, struct header *header) {
    return read_flags(cursor, header) && read_publisher(cursor, header) && read_group_part(cursor, header) &&
           read_ids(cursor, header) && read_extras(cursor, header);
}

static bool is_ours(const struct read_group *group, const struct header *header) {
    return header->flags & 0x10 && !(header->extended1 & 7) && header->publisher == group->publisher &&
           header->parts & 1 && header->group == group->id;
}

// ---- the guard

static verdict test(struct read_group *group, const struct header *header, const uint8_t *datagram, size_t payload,
                    size_t length) {
    uint8_t signature[SIGNATURE];
    bool secured = header->extended1 & 0x10;
    if (secured != (group->keys.mode != UNSECURED)) return BAD_MODE;
    if (!secured) return TAKEN;
    if (header->security_flags != (group->keys.mode == ENCRYPTED ? 3 : 1) || header->nonce_length != 8) return BAD_MODE;
    if (length - payload < SIGNATURE) return BAD_SIGNATURE;
    if (header->token != TOKEN) return BAD_TOKEN;
    sign(&group->keys, datagram, length - SIGNATURE, signature);
    if (CRYPTO_memcmp(signature, datagram + length - SIGNATURE, SIGNATURE)) return BAD_SIGNATURE;
    uint32_t number = get32(header->nonce + 4);
    if (!group->has_high || number > group->high) return TAKEN;
    if (group->high - number >= WINDOW) return TOO_OLD;
    return group->window[number / 64 % 16] >> number % 64 & 1 ? REPEATED : TAKEN;
}

static void accept(struct read_group *group, uint32_t number) {
    if (!group->has_high || number > group->high) {
        uint32_t from = group->has_high && number - group->high < WINDOW ? group->high + 1 : number - number % WINDOW;
        if (!group->has_high || number - group->high >= WINDOW) memset(group->window, 0, sizeof group->window);
        for (uint32_t n = from; n < number; n++) group->window[n / 64 % 16] &= ~((uint64_t)1 << n % 64);
        group->has_high = true;
        group->high = number;
    }
    group->window[number / 64 % 16] |= (uint64_t)1 << number % 64;
}

// ---- frames

struct front {
    uint8_t encoding, kind;
    bool numbered, versioned;
    uint16_t number;
    uint32_t major, minor;
};

static bool read_front(struct cursor *cursor, struct front *front) {
    const uint8_t *at;
    if (!(at = next(cursor, 1)) || !(*at & 1)) return false;
    uint8_t flags = *at, more = 0;
    front->encoding = flags >> 1 & 3;
    if (flags & 0x80) {
        if (!(at = next(cursor, 1))) return false;
        more = *at;
    }
    front->kind = more & 15;
    if (front->kind > 3 || front->kind == 2 || more & 0xc0) return false;
    if (flags & 8) {
        if (!(at = next(cursor, 2))) return false;
        front->numbered = true;
        front->number = get16(at);
    }
    if (more & 0x10 && !next(cursor, 8)) return false;
    if (more & 0x20 && !next(cursor, 2)) return false;
    if (flags & 0x10 && !next(cursor, 2)) return false;
    if (flags & 0x20) {
        if (!(at = next(cursor, 4))) return false;
        front->versioned = true;
        front->major = get32(at);
    }
    if (flags & 0x40) {
        if (!(at = next(cursor, 4))) return false;
        front->minor = get32(at);
    }
    return true;
}

#ifdef TEXTS
static bool is_utf8(const uint8_t *at, size_t length) {
    static const uint32_t least[] = {0, 0x80, 0x800, 0x10000};
    for (const uint8_t *end = at + length; at < end;) {
        int more = *at < 0x80 ? 0 : (*at & 0xe0) == 0xc0 ? 1 : (*at & 0xf0) == 0xe0 ? 2 : (*at & 0xf8) == 0xf0 ? 3 : -1;
        if (more < 0 || end - at <= more) return false;
        uint32_t point = more ? *at & (0x3f >> more) : *at;
        for (at++; more > 0 && (*at & 0xc0) == 0x80; more--, at++) point = point << 6 | (*at & 0x3f);
        if (more || point > 0x10ffff || (point >= 0xd800 && point < 0xe000)) return false;
        if (point >= 0x80 && point < least[point < 0x800 ? 1 : point < 0x10000 ? 2 : 3]) return false;
    }
    return true;
}

// A text of null is read as empty.
static bool read_text(struct cursor *cursor, const struct field *field, uint64_t *words) {
    const uint8_t *at = next(cursor, 4);
    if (!at) return false;
    int32_t length = (int32_t)get32(at);
    if (length < -1 || length > field->cap) return false;
    if (length < 0) length = 0;
    if (!(at = next(cursor, (size_t)length)) || !is_utf8(at, (size_t)length)) return false;
    *words = (uint64_t)length;
    memset(words + 1, 0, 8 * ((field->cap + 7u) / 8));
    memcpy(words + 1, at, (size_t)length);
    return true;
}
#endif

static bool read_scalar(struct cursor *cursor, struct field field, uint64_t *word) {
    const uint8_t *at = next(cursor, field.size);
    if (!at) return false;
    switch (field.size) {
    case 1: *word = *at; return true;
    case 2: *word = get16(at); return true;
    case 4: *word = get32(at); return true;
    default: memcpy(word, at, 8); return true;
    }
}

static bool read_value(struct cursor *cursor, const struct meta *meta, size_t i, uint64_t *words) {
#ifdef TEXTS
    if (!meta->fields[i].size) return read_text(cursor, &meta->fields[i], &words[WORD_OF(meta, i)]);
#endif
    return read_scalar(cursor, meta->fields[i], &words[WORD_OF(meta, i)]);
}

static bool read_whole(struct cursor *cursor, const struct meta *meta, uint64_t *words) {
    const uint8_t *at = next(cursor, 2);
    if (!at || get16(at) != meta->count) return false;
    for (size_t i = 0; i < meta->count; i++) {
        if (!(at = next(cursor, 1)) || *at != meta->fields[i].type) return false;
        if (!read_value(cursor, meta, i, words)) return false;
    }
    return true;
}

static bool read_raw(struct cursor *cursor, const struct meta *meta, uint64_t *words) {
    for (size_t i = 0; i < meta->count; i++)
        if (!read_value(cursor, meta, i, words)) return false;
    return true;
}

static bool read_change(struct cursor *cursor, const struct meta *meta, uint64_t *words, uint64_t *mask) {
    const uint8_t *at = next(cursor, 2);
    if (!at) return false;
    for (uint32_t rest = get16(at); rest; rest--) {
        if (!(at = next(cursor, 3))) return false;
        size_t i = get16(at);
        if (i >= meta->count || *mask >> i & 1 || at[2] != meta->fields[i].type) return false;
        if (!read_value(cursor, meta, i, words)) return false;
        *mask |= (uint64_t)1 << i;
    }
    return true;
}

static bool is_padding(const struct cursor *cursor) {
    for (const uint8_t *at = cursor->at; at < cursor->end; at++)
        if (*at) return false;
    return true;
}

struct message {
    struct front front;
    uint64_t mask, words[MESSAGE_WORDS];
};

static bool read_message(const uint8_t *bytes, size_t length, const struct meta *meta, bool fixed, struct message *message) {
    struct cursor cursor = {bytes, bytes + length};
    message->front = (struct front){0};
    message->mask = 0;
    if (!read_front(&cursor, &message->front)) return false;
    bool raw = message->front.encoding == 1;
    if (message->front.kind != 3) {
        if (raw ? !fixed || message->front.kind : message->front.encoding) return false;
        if (raw ? !read_raw(&cursor, meta, message->words)
            : message->front.kind == 0 ? !read_whole(&cursor, meta, message->words)
                                       : !read_change(&cursor, meta, message->words, &message->mask))
            return false;
    }
    return is_padding(&cursor);
}

// ---- readers

enum { START, GAP, JUMP };

static void mark(struct reader *reader, uint32_t stamp) {
    if (stamp > reader->stamp && reader->stamp && stamp - reader->stamp >= 16384) {
        reader->placed = reader->holds = false;
        reader->why = JUMP;
    }
    if (stamp > reader->stamp) reader->stamp = stamp;
}

static void note_break(struct reader *reader, uint16_t expected, uint16_t got) {
    reader->breaks++;
    if (reader->recent_count == 8)
        memmove(reader->recent, reader->recent + 1, 7 * sizeof *reader->recent);
    else
        reader->recent_count++;
    reader->recent[reader->recent_count - 1] = (struct lost){expected, got};
}

static void hold(struct reader *reader, const struct meta *meta, const struct message *message, uint64_t now) {
    if (message->front.kind == 0) {
        memcpy(reader->row.words, message->words, 8 * WORDS_OF(meta));
        reader->holds = true;
    }
    for (uint64_t mask = message->mask; mask; mask &= mask - 1) {
        size_t i = (size_t)__builtin_ctzll(mask), word = WORD_OF(meta, i);
#ifdef TEXTS
        if (!meta->fields[i].size) memcpy(reader->row.words + word + 1, message->words + word + 1, 8 * ((meta->fields[i].cap + 7u) / 8));
#endif
        reader->row.words[word] = message->words[word];
    }
    reader->number = message->front.number;
    reader->ready = true;
    reader->late = false;
    reader->timed = true;
    reader->seen_at = now;
}

// A keep-alive has the number of the next message.
static void give(struct reader *reader, const struct meta *meta, const struct message *message, uint64_t now, uint32_t stamp) {
    const struct front *front = &message->front;
    if ((front->versioned && front->major != meta->major) || !front->numbered) return;
    if (stamp) mark(reader, stamp);
    bool silent = front->kind == 3, broke = false;
    uint16_t place = (uint16_t)(front->number - silent);
    if (reader->placed) {
        if ((uint16_t)(place - reader->last - 1) >= 16384) {
            if (!silent) return;
            reader->timed = true;
            reader->late = false;
            reader->seen_at = now;
            return;
        }
        broke = silent || place != (uint16_t)(reader->last + 1);
        if (broke) note_break(reader, (uint16_t)(reader->last + 1), front->number);
    }
    reader->placed = true;
    reader->last = place;
    if (front->kind == 0 || (front->kind == 1 && reader->holds && !broke)) {
        hold(reader, meta, message, now);
    } else if (broke) {
        reader->holds = false;
        reader->why = GAP;
    }
}

static bool take_message(struct read_group *group, struct reader *reader, const struct meta *metas, const uint8_t *bytes,
                         size_t length, uint64_t now, uint32_t stamp) {
    struct message message;
    const struct meta *meta = &metas[reader->dataset];
    if (!read_message(bytes, length, meta, group->fixed, &message)) return false;
    give(reader, meta, &message, now, stamp);
    return true;
}

// ---- chunks

// A bit for each byte that came.
static void cover(struct reader *reader, size_t first, size_t end) {
    for (size_t index = first / 64; index < (end + 63) / 64; index++) {
        size_t low = first > 64 * index ? first - 64 * index : 0;
        size_t high = end < 64 * index + 64 ? end - 64 * index : 64;
        reader->cover[index] |= UINT64_MAX << low & UINT64_MAX >> (64 - high);
    }
}

static bool is_covered(const struct reader *reader, size_t total) {
    for (size_t index = 0; index < total / 64; index++)
        if (~reader->cover[index]) return false;
    return total % 64 == 0 || !~(reader->cover[total / 64] | UINT64_MAX << total % 64);
}

// Of one message at a time; a newer one puts an older one out.
static bool take_chunk(struct read_group *group, struct reader *reader, const struct meta *metas, const uint8_t *bytes,
                       size_t size, uint64_t now, uint32_t stamp) {
    if (size < 14) return false;
    uint16_t number = get16(bytes);
    uint32_t offset = get32(bytes + 2), total = get32(bytes + 6), length = get32(bytes + 10);
    if (length > size - 14 || !length || total > WHOLE_BYTES || (uint64_t)offset + length > total) return false;
    if (reader->joining && reader->chunk_number == number) {
        if (reader->whole) return true;
        if (reader->chunk_total != total) return false;
    } else {
        if (reader->joining && (uint16_t)(number - reader->chunk_number - 1) >= 16384) return true;
        memset(reader->cover, 0, sizeof reader->cover);
    }
    memcpy(reader->joined + offset, bytes + 14, length);
    cover(reader, offset, offset + length);
    reader->joining = true;
    reader->chunk_number = number;
    reader->chunk_total = total;
    reader->whole = is_covered(reader, total);
    return !reader->whole || take_message(group, reader, metas, reader->joined, total, now, stamp);
}

// ---- datagrams

static struct reader *reader_of(struct read_group *group, const bool *on, uint16_t id) {
    for (size_t i = 0; i < group->reader_count; i++)
        if (group->ids[i] == id) return on[i] ? &group->readers[i] : 0;
    return 0;
}

static void count(struct taken *taken, bool good) {
    taken->matched++;
    taken->bad += !good;
}

static void feed_slots(struct read_group *group, const struct meta *metas, const bool *on, const uint8_t *datagram,
                       size_t end, uint64_t now, uint32_t stamp, struct taken *taken) {
    for (size_t i = 0; i < group->reader_count; i++) {
        struct reader *reader = &group->readers[i];
        if (!on[i]) continue;
        taken->parts++;
        count(taken, reader->offset + reader->size <= end &&
                         take_message(group, reader, metas, datagram + reader->offset, reader->size, now, stamp));
    }
}

// Each message lies within the datagram, or nothing is given to a reader.
static bool are_within(const uint8_t *sizes, size_t count, size_t length) {
    size_t end = 2 * count;
    if (count == 1) return true;
    if (end > length) return false;
    for (size_t i = 0; i < count; i++) end += get16(sizes + 2 * i);
    return end <= length;
}

static verdict feed_list(struct read_group *group, const struct meta *metas, const bool *on, const struct header *header,
                         const uint8_t *payload, size_t length, uint64_t now, uint32_t stamp, struct taken *taken) {
    size_t messages = header->id_count;
    if (!are_within(payload, messages, length)) return BAD_SIZES;
    const uint8_t *at = messages == 1 ? payload : payload + 2 * messages;
    taken->parts = (uint32_t)messages;
    for (size_t i = 0; i < messages; i++) {
        size_t size = messages == 1 ? length : get16(payload + 2 * i);
        struct reader *reader = reader_of(group, on, get16(header->ids + 2 * i));
        if (reader) count(taken, take_message(group, reader, metas, at, size, now, stamp));
        at += size;
    }
    return TAKEN;
}

static verdict feed(struct read_group *group, const struct meta *metas, const bool *on, const struct header *header,
                    const uint8_t *datagram, size_t payload, size_t end, uint64_t now, struct taken *taken) {
    uint32_t stamp = group->keys.mode ? get32(header->nonce + 4) : 0;
    if (group->fixed) {
        feed_slots(group, metas, on, datagram, end, now, stamp, taken);
        return TAKEN;
    }
    if (header->extended2 & 1) {
        struct reader *reader = reader_of(group, on, header->chunk);
        taken->parts = 1;
        if (reader) count(taken, take_chunk(group, reader, metas, datagram + payload, end - payload, now, stamp));
        return TAKEN;
    }
    return feed_list(group, metas, on, header, datagram + payload, end - payload, now, stamp, taken);
}

__attribute__((noinline)) verdict take_datagram(struct read_group *group, const struct meta *metas, uint64_t now,
                                                const bool *on, uint8_t *datagram, size_t length, struct taken *taken) {
    struct cursor cursor = {datagram, datagram + length};
    struct header header = {0};
    *taken = (struct taken){0, 0, 0};
    if (!read_header(&cursor, &header)) return BAD_HEADER;
    if (!is_ours(group, &header)) return NOT_OURS;
    size_t payload = (size_t)(cursor.at - datagram), end = length;
    verdict refused = test(group, &header, datagram, payload, length);
    if (refused) return refused;
    if (!group->fixed && !(header.flags & 0x40)) return NO_IDS;
    if (group->keys.mode) {
        end -= SIGNATURE;
        if (group->keys.mode == ENCRYPTED) add_stream(&group->keys, header.nonce, datagram + payload, end - payload);
    }
    verdict verdict = feed(group, metas, on, &header, datagram, payload, end, now, taken);
    if (verdict == TAKEN && group->keys.mode) accept(group, get32(header.nonce + 4));
    return verdict;
}

// ---- opening

void open_read_group(struct read_group *group, const struct session *session, uint16_t id) {
    memset(group, 0, sizeof *group);
    group->publisher = 5;
    group->id = id;
    group->fixed = session->fixed;
    group->reader_count = session->writers;
    key_contexts(&group->keys, session->mode);
    for (size_t i = 0; i < session->writers; i++) {
        group->ids[i] = (uint16_t)(i + 1);
        group->readers[i].dataset = (uint8_t)(i % session->datasets);
        group->readers[i].offset = slot_offset(session, i);
        group->readers[i].size = slot_size(session);
    }
}

void close_read_group(struct read_group *group) { free_contexts(&group->keys); }
