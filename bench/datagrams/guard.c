// Times protecting and opening beside OpenSSL's EVP, whose contexts are keyed once and used again, in turns, and prints
// the least time of each. Both sides must make the same bytes. Protecting begins with the header of 25 bytes, which this
// repository writes part by part, reads again and compares with the sender's front; the other side copies it and lays the
// number in. A signature has 32 bytes.
#include <openssl/core_names.h>
#include <openssl/crypto.h>
#include <openssl/evp.h>
#include <stdint.h>
#include <stdio.h>
#include <string.h>
#include <time.h>

void bench_protect(uint32_t encrypts, uint32_t is_long, uint32_t turns, uint8_t *datagram, size_t length);
uint32_t bench_open(uint32_t encrypts, uint32_t is_long, uint32_t turns, size_t payload, const uint8_t *datagram,
                    size_t length, uint8_t *copy, size_t copy_length);

enum { ROUNDS = 60, TURNS = 500, HEADER = 25, SIGNATURE = 32, BYTES = 1400 };

static EVP_CIPHER_CTX *cipher;
static EVP_MAC_CTX *mac;
static uint8_t counter[16] = {51, 51, 51, 51, 0, 0, 0, 0, 1, 0, 0, 0, 0, 0, 0, 1};

static double now(void) {
    struct timespec t;
    clock_gettime(CLOCK_MONOTONIC, &t);
    return t.tv_sec * 1e9 + t.tv_nsec;
}

static void keep_least(double *least, double start) {
    double each = (now() - start) / TURNS;
    if (*least == 0 || each < *least) *least = each;
}

static void key_contexts(int is_long) {
    uint8_t key[32], signing[32];
    for (int i = 0; i < 32; i++) key[i] = (uint8_t)(64 + i), signing[i] = (uint8_t)i;
    char digest[] = "SHA256";
    OSSL_PARAM named[] = {OSSL_PARAM_construct_utf8_string(OSSL_MAC_PARAM_DIGEST, digest, 0), OSSL_PARAM_construct_end()};
    EVP_EncryptInit_ex(cipher, is_long ? EVP_aes_256_ctr() : EVP_aes_128_ctr(), 0, key, counter);
    EVP_MAC_init(mac, signing, sizeof signing, named);
}

// PublisherId 5, group 1, sequence number 0, writer 1, token 1; the flags stand at 11, the number at 21.
static const uint8_t header[HEADER] = {0xf1, 0x10, 5, 9, 1, 0, 0, 0, 1, 1, 0, 1, 1, 0, 0, 0, 8};

static void begin(int encrypts, uint8_t *datagram, uint32_t number) {
    memcpy(datagram, header, HEADER);
    if (encrypts) datagram[11] |= 2;
    for (int i = 0; i < 4; i++) datagram[21 + i] = (uint8_t)(number >> 8 * i);
}

static void cover(uint8_t *datagram, size_t length, uint32_t number) {
    int written;
    for (int i = 0; i < 4; i++) counter[8 + i] = (uint8_t)(number >> 8 * i);
    EVP_EncryptInit_ex(cipher, 0, 0, 0, counter);
    EVP_EncryptUpdate(cipher, datagram + HEADER, &written, datagram + HEADER, (int)(length - HEADER - SIGNATURE));
}

static void sign(const uint8_t *datagram, size_t length, uint8_t *signature) {
    size_t written;
    EVP_MAC_init(mac, 0, 0, 0);
    EVP_MAC_update(mac, datagram, length - SIGNATURE);
    EVP_MAC_final(mac, signature, &written, SIGNATURE);
}

static void their_protect(int encrypts, uint8_t *datagram, size_t length) {
    for (uint32_t turn = 1; turn <= TURNS; turn++) {
        begin(encrypts, datagram, turn);
        if (encrypts) cover(datagram, length, turn);
        sign(datagram, length, datagram + length - SIGNATURE);
    }
}

static uint32_t their_open(int encrypts, const uint8_t *datagram, size_t length, uint8_t *copy) {
    uint32_t passed = 0;
    uint8_t signature[SIGNATURE];
    for (int turn = 0; turn < TURNS; turn++) {
        memcpy(copy, datagram, length);
        sign(copy, length, signature);
        if (CRYPTO_memcmp(signature, copy + length - SIGNATURE, SIGNATURE)) continue;
        if (encrypts) cover(copy, length, 1);
        passed++;
    }
    return passed;
}

static void print_ratio(const char *call, int encrypts, int is_long, size_t length, double us, double them) {
    const char *mode = !encrypts ? "sign" : is_long ? "AES-256" : "AES-128";
    printf("%-7s %-7s %5zu bytes: %7.0f ns, OpenSSL %7.0f ns, ratio %.2f\n", call, mode, length, us, them, them / us);
}

static void measure(int encrypts, int is_long, size_t length) {
    static uint8_t ours[BYTES], theirs[BYTES], sealed[BYTES], mine[BYTES], other[BYTES];
    double protect_us = 0, protect_them = 0, open_us = 0, open_them = 0;
    key_contexts(is_long);
    for (size_t i = 0; i < length; i++) sealed[i] = (uint8_t)(5 * i);
    bench_protect(encrypts, is_long, 1, sealed, length);
    for (int round = 0; round < ROUNDS; round++) {
        for (size_t i = 0; i < length; i++) ours[i] = theirs[i] = (uint8_t)(3 * i);
        double start = now();
        bench_protect(encrypts, is_long, TURNS, ours, length);
        keep_least(&protect_us, start);
        start = now();
        their_protect(encrypts, theirs, length);
        keep_least(&protect_them, start);
        if (memcmp(ours, theirs, length)) puts("the datagrams differ");
        start = now();
        uint32_t passed = bench_open(encrypts, is_long, TURNS, HEADER, sealed, length, mine, length);
        keep_least(&open_us, start);
        start = now();
        uint32_t theirs_passed = their_open(encrypts, sealed, length, other);
        keep_least(&open_them, start);
        if (passed != TURNS || theirs_passed != TURNS || memcmp(mine, other, length)) puts("the payloads differ");
    }
    print_ratio("protect", encrypts, is_long, length, protect_us, protect_them);
    print_ratio("open", encrypts, is_long, length, open_us, open_them);
}

int main(void) {
    const size_t lengths[] = {89, 97, 382, BYTES};
    cipher = EVP_CIPHER_CTX_new();
    mac = EVP_MAC_CTX_new(EVP_MAC_fetch(0, "HMAC", 0));
    for (int i = 0; i < 4; i++) measure(0, 0, lengths[i]);
    for (int is_long = 0; is_long < 2; is_long++)
        for (int i = 0; i < 4; i++) measure(1, is_long, lengths[i]);
    EVP_CIPHER_CTX_free(cipher);
    EVP_MAC_CTX_free(mac);
    return 0;
}
