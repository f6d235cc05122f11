// Times the calls of libbench_parts.a beside OpenSSL's, in turns, and prints the least time of each.
#include <openssl/evp.h>
#include <openssl/hmac.h>
#include <stdint.h>
#include <stdio.h>
#include <string.h>
#include <time.h>

void bench_stream_128(const uint8_t *key, const uint8_t *front, uint32_t turns, uint8_t *bytes, size_t length);
void bench_stream_256(const uint8_t *key, const uint8_t *front, uint32_t turns, uint8_t *bytes, size_t length);
void bench_key_128(uint32_t turns, uint8_t *key);
void bench_sign(const uint8_t *bytes, size_t length, uint32_t turns, uint8_t *signature);
uint32_t bench_test(uint32_t turns);
uint32_t bench_take(uint32_t turns);

enum { ROUNDS = 400, BYTES = 1400 };

static uint8_t key[32], front[12], ours[BYTES], theirs[BYTES];

static double now(void) {
    struct timespec t;
    clock_gettime(CLOCK_MONOTONIC, &t);
    return t.tv_sec * 1e9 + t.tv_nsec;
}

static void keep_least(double *least, double start, int turns) {
    double each = (now() - start) / turns;
    if (*least == 0 || each < *least) *least = each;
}

static void print_ratio(const char *name, size_t length, double us, double them) {
    printf("%-8s %5zu bytes: %7.0f ns, OpenSSL %7.0f ns, ratio %.2f\n", name, length, us, them, them / us);
}

static void stream(int bits, size_t length) {
    int turns = length < 1000 ? 50 : 20, written;
    uint8_t counter[16] = {0};
    double us = 0, them = 0;
    EVP_CIPHER_CTX *context = EVP_CIPHER_CTX_new();
    memcpy(counter, front, sizeof front);
    counter[15] = 1;
    EVP_EncryptInit_ex(context, bits == 128 ? EVP_aes_128_ctr() : EVP_aes_256_ctr(), 0, key, counter);
    memset(ours, 0x5a, BYTES);
    memset(theirs, 0x5a, BYTES);
    for (int round = 0; round < ROUNDS; round++) {
        double start = now();
        (bits == 128 ? bench_stream_128 : bench_stream_256)(key, front, turns, ours, length);
        keep_least(&us, start, turns);
        start = now();
        for (int i = 0; i < turns; i++) {
            EVP_EncryptInit_ex(context, 0, 0, 0, counter);
            EVP_EncryptUpdate(context, theirs, &written, theirs, (int)length);
        }
        keep_least(&them, start, turns);
        // an even number of turns gives the bytes back, so compare after one
        bench_stream_128(key, front, bits == 128, ours, length);
        bench_stream_256(key, front, bits == 256, ours, length);
        EVP_EncryptInit_ex(context, 0, 0, 0, counter);
        EVP_EncryptUpdate(context, theirs, &written, theirs, (int)length);
        if (memcmp(ours, theirs, BYTES)) puts("the streams differ");
    }
    EVP_CIPHER_CTX_free(context);
    print_ratio(bits == 128 ? "AES-128" : "AES-256", length, us, them);
}

static void sign(size_t length) {
    int turns = 20;
    uint8_t mine[32] = {1}, other[32] = {1};
    double us = 0, them = 0;
    for (int round = 0; round < ROUNDS; round++) {
        double start = now();
        bench_sign(ours, length, turns, mine);
        keep_least(&us, start, turns);
        start = now();
        for (int i = 0; i < turns; i++) HMAC(EVP_sha256(), other, 32, ours, length, other, 0);
        keep_least(&them, start, turns);
        if (memcmp(mine, other, 32)) puts("the signatures differ");
    }
    print_ratio("HMAC", length, us, them);
}

static void alone(void) {
    double expand = 0, test = 0, take = 0;
    for (int round = 0; round < ROUNDS; round++) {
        double start = now();
        bench_key_128(20, key);
        keep_least(&expand, start, 20);
        start = now();
        bench_test(10240);
        keep_least(&test, start, 10240);
        start = now();
        bench_take(10240);
        keep_least(&take, start, 10240);
    }
    printf("AES-128 key and one block: %.0f ns\n", expand);
    printf("window: test %.1f ns, test and take %.1f ns\n", test, take);
}

int main(void) {
    for (int i = 0; i < 32; i++) key[i] = (uint8_t)(7 * i + 1);
    for (int i = 0; i < 12; i++) front[i] = (uint8_t)i;
    const size_t lengths[] = {40, 400, BYTES};
    for (int bits = 128; bits <= 256; bits += 128)
        for (int i = 0; i < 3; i++) stream(bits, lengths[i]);
    for (int i = 1; i < 3; i++) sign(lengths[i]);
    alone();
    return 0;
}
