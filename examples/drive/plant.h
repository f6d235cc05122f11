/* What the drive and its gateway share: the clock, the log, the file of keys, and rows as text. For C11 and C++20, over POSIX. */
#ifndef PLANT_H
#define PLANT_H

#include "uapubsub.h"
#include "uapubsub_posix.h"
#include <inttypes.h>
#include <stdarg.h>
#include <stdlib.h>

/* How many key sets a ring has at most, the bytes of their file, how often it is looked at, and the bytes of a row as text. */
enum { PLANT_SETS = 16, PLANT_KEYS_BYTES = 4096, PLANT_KEYS_MS = 250, PLANT_ROW_BYTES = 512, PLANT_FIELD_BYTES = 257 };

/* Milliseconds since 1970, by a clock that isn't set back while the program lives. The moments of keys are of it. */
static inline uint64_t plant_now(void) {
    static uint64_t epoch_ms;
    struct timespec wall;
    if (epoch_ms == 0) {
        clock_gettime(CLOCK_REALTIME, &wall);
        epoch_ms = (uint64_t)wall.tv_sec * 1000 + (uint64_t)wall.tv_nsec / 1000000 - uap_posix_now_ms();
    }
    return epoch_ms + uap_posix_now_ms();
}

/* A DateTime of such a moment. */
static inline int64_t plant_date_time(uint64_t now) {
    return (int64_t)now * 10000 + 116444736000000000;
}

/* A line of the log, with the moment in front. */
static inline void plant_log(const char *format, ...) {
    va_list more;
    va_start(more, format);
    printf("%" PRIu64 " ", plant_now());
    vprintf(format, more);
    putchar('\n');
    va_end(more);
}

static inline void plant_demand(bool is_so, const char *else_said) {
    if (is_so) return;
    fprintf(stderr, "%s\n", else_said);
    exit(1);
}

/* A port, 1 to 65535. */
static inline uint16_t plant_port(const char *word) {
    char *rest;
    unsigned long number = strtoul(word, &rest, 10);
    plant_demand(word[0] >= '1' && word[0] <= '9' && *rest == '\0' && number <= 65535, "a port is a number from 1 to 65535");
    return (uint16_t)number;
}

/* ---- the file of keys: a line for each key set, TOKEN FROM SIGNING ENCRYPTING NONCE, the keys in hexadecimal digits. Who fetches keys writes the
 * file anew, by a rename, with the key in use in front. */

struct plant_keys {
    const char *name;
    uint64_t again_ms;               /* when the file is looked at again */
    char text[PLANT_KEYS_BYTES];     /* what was read last */
    struct uap_key_set sets[PLANT_SETS];
    size_t count;
};

static inline bool plant_hex(const char *digits, uint8_t *bytes, size_t length) {
    if (strlen(digits) != 2 * length) return false;
    for (size_t i = 0; i < length; i++)
        if (sscanf(digits + 2 * i, "%2" SCNx8, &bytes[i]) != 1) return false;
    return true;
}

static inline bool plant_key_set(const char *line, struct uap_key_set *set) {
    char signing[65], encrypting[65], nonce[9], more;
    memset(set, 0, sizeof *set);
    return sscanf(line, "%" SCNu32 " %" SCNu64 " %64[0-9a-f] %64[0-9a-f] %8[0-9a-f] %c", &set->token, &set->from_ms, signing, encrypting, nonce, &more) == 5 &&
           plant_hex(signing, set->signing, 32) && plant_hex(encrypting, set->encrypting, 16) && plant_hex(nonce, set->nonce, 4);
}

/* Whether the file has other key sets than before, which then stand in `sets`. One that can't be read changes nothing. */
static inline bool plant_keys_came(struct plant_keys *keys, uint64_t now) {
    char text[PLANT_KEYS_BYTES];
    struct uap_key_set sets[PLANT_SETS];
    size_t length, count = 0;
    if (now < keys->again_ms) return false;
    keys->again_ms = now + PLANT_KEYS_MS;
    if (uap_posix_read(keys->name, text, sizeof text - 1, &length) != 0) return false;
    text[length] = '\0';
    if (strcmp(text, keys->text) == 0) return false;
    strcpy(keys->text, text);
    for (char *line = strtok(text, "\n"); line != NULL; line = strtok(NULL, "\n"))
        if (count == PLANT_SETS || !plant_key_set(line, &sets[count++])) return plant_log("keys refused: line %zu", count), false;
    memcpy(keys->sets, sets, sizeof sets);
    keys->count = count;
    return count > 0;
}

/* ---- rows as text: of a reader, or the publisher's own row of a data set */

struct plant_row {
    struct uap_handle *handle;
    bool is_own;
    uint32_t set, group, reader;
};

static inline uint32_t plant_text(const struct plant_row *row, uint32_t field, char *to, size_t room) {
    size_t length = 0;
    uint32_t status = row->is_own ? uap_own_text(row->handle, row->set, field, to, room - 1, &length)
                                  : uap_get_text(row->handle, row->group, row->reader, field, to, room - 1, &length);
    if (status != UAP_OK) return status;
    to[length] = '\0';
    for (char *c = to; *c != '\0'; c++)
        if (*c > 0 && *c < ' ') *c = '?'; /* so that a line stays one */
    return UAP_OK;
}

/* A field as text. A number but Float and Double is its word. */
static inline uint32_t plant_field(const struct plant_row *row, uint32_t field, uint32_t kind, char *to, size_t room) {
    uint64_t word = 0;
    if (kind == UAP_STRING) return plant_text(row, field, to, room);
    uint32_t status = row->is_own ? uap_own_word(row->handle, row->set, field, kind, &word)
                                  : uap_get_word(row->handle, row->group, row->reader, field, kind, &word);
    uint32_t half = (uint32_t)word;
    float single;
    double twice;
    memcpy(&single, &half, sizeof single);
    memcpy(&twice, &word, sizeof twice);
    if (kind == UAP_FLOAT) snprintf(to, room, "%.9g", (double)single);
    else if (kind == UAP_DOUBLE) snprintf(to, room, "%.17g", twice);
    else snprintf(to, room, "%" PRIu64, word);
    return status;
}

/* The row as text, NAME=VALUE for each field. UAP_NONE: the reader holds none. */
static inline uint32_t plant_row_text(const struct plant_row *row, char *line, size_t room) {
    char name[UAP_NAME_ROOM], value[PLANT_FIELD_BYTES];
    struct uap_field info;
    size_t count, used = 0;
    uint32_t status = uap_field_count(row->handle, row->set, &count);
    line[0] = '\0';
    for (uint32_t field = 0; status == UAP_OK && field < count && used < room; field++) {
        status = uap_field_name(row->handle, row->set, field, name, sizeof name);
        if (status == UAP_OK) status = uap_field_info(row->handle, row->set, field, &info);
        if (status == UAP_OK) status = plant_field(row, field, info.kind, value, sizeof value);
        if (status == UAP_OK) used += (size_t)snprintf(line + used, room - used, "%s%s=%s", field == 0 ? "" : " ", name, value);
    }
    return status;
}

#endif
