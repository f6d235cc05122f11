/* What a program makes of an answer of GetSecurityKeys (OPC 10000-14 8.3.2) that its OPC UA client got: key sets for uap_publisher_renew,
 * uap_publisher_resume_with and uap_subscriber_renew. docs/KEYS.md tells how. */
#ifndef PULLED_H
#define PULLED_H

#include "uapubsub.h"

/* The method's output arguments, as they came. It was asked with StartingTokenId 0. */
struct pulled {
    const char *policy_uri;       /* SecurityPolicyUri */
    uint32_t first_token;         /* FirstTokenId */
    const uint8_t *const *keys;   /* Keys: the bytes of each ByteString, and how many there are */
    const size_t *lengths;
    size_t count;
    double time_to_next_key;      /* TimeToNextKey and KeyLifetime: Durations, in milliseconds */
    double key_lifetime;
};

enum { MOST_KEY_SETS = 16, SIGNING_BYTES = 32, NONCE_BYTES = 4 };

/* A Duration in whole milliseconds, at least one; 0: it is none that a key has (not a number, below 0, above a million days). */
static inline uint64_t whole_ms(double duration) {
    if (!(duration >= 0 && duration <= 86400e9)) return 0;
    return duration < 1 ? 1 : (uint64_t)duration;
}

/* Divides one ByteString: the signing key, the encrypting key and the nonce, one after another. */
static inline void divided(const uint8_t *key, size_t encrypting, struct uap_key_set *set) {
    memcpy(set->signing, key, SIGNING_BYTES);
    memcpy(set->encrypting, key + SIGNING_BYTES, encrypting);
    memcpy(set->nonce, key + SIGNING_BYTES + encrypting, NONCE_BYTES);
}

/* Lays key sets of an answer that came at `now_ms` into `sets`, which has room for 16, and tells how many. `aes256`: the key group has
 * `policy = "aes256"`. 0: the answer is of another policy, or isn't as the standard has it. */
static inline size_t pulled_sets(const struct pulled *answer, bool aes256, uint64_t now_ms, struct uap_key_set *sets) {
    const char *uri = aes256 ? "http://opcfoundation.org/UA/SecurityPolicy#PubSub-Aes256-CTR"
                             : "http://opcfoundation.org/UA/SecurityPolicy#PubSub-Aes128-CTR";
    size_t encrypting = aes256 ? 32 : 16, count = answer->count;
    uint64_t next = whole_ms(answer->time_to_next_key), lifetime = whole_ms(answer->key_lifetime);
    if (strcmp(answer->policy_uri, uri) != 0 || next == 0 || lifetime == 0) return 0;
    if (count > MOST_KEY_SETS) count = MOST_KEY_SETS;
    for (size_t i = 0; i < count; i++) {
        if (answer->lengths[i] != SIGNING_BYTES + encrypting + NONCE_BYTES) return 0;
        if (i > UINT32_MAX - answer->first_token) return i;       /* the tokens after it begin anew at 1: ask again under the last one */
        memset(&sets[i], 0, sizeof sets[i]);
        sets[i].token = answer->first_token + (uint32_t)i;
        sets[i].from_ms = i == 0 ? 0 : now_ms + next + (i - 1) * lifetime;
        divided(answer->keys[i], encrypting, &sets[i]);
    }
    return count;
}

#endif
