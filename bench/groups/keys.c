// Signatures and encryption by OpenSSL's EVP.
#include "plain.h"
#include <openssl/core_names.h>
#include <openssl/params.h>
#include <string.h>

#ifndef CIPHER
#define CIPHER EVP_aes_128_ctr
#endif

void key_contexts(struct keys *keys, mode mode) {
    uint8_t key[32], signing[SIGNATURE];
    char digest[] = "SHA256";
    OSSL_PARAM named[] = {OSSL_PARAM_construct_utf8_string(OSSL_MAC_PARAM_DIGEST, digest, 0), OSSL_PARAM_construct_end()};
    *keys = (struct keys){.mode = mode};
    if (mode == UNSECURED) return;
    for (int i = 0; i < 32; i++) key[i] = (uint8_t)(64 + i);
    for (int i = 0; i < SIGNATURE; i++) signing[i] = (uint8_t)i;
    memset(keys->counter, 51, 4);
    keys->counter[15] = 1;
    EVP_MAC *hmac = EVP_MAC_fetch(0, "HMAC", 0);
    keys->cipher = EVP_CIPHER_CTX_new();
    keys->mac = EVP_MAC_CTX_new(hmac);
    EVP_EncryptInit_ex(keys->cipher, CIPHER(), 0, key, keys->counter);
    EVP_MAC_init(keys->mac, signing, sizeof signing, named);
    EVP_MAC_free(hmac);
}

void free_contexts(struct keys *keys) {
    EVP_CIPHER_CTX_free(keys->cipher);
    EVP_MAC_CTX_free(keys->mac);
}

void add_stream(struct keys *keys, const uint8_t *nonce, uint8_t *bytes, size_t length) {
    int written;
    memcpy(keys->counter + 4, nonce, 8);
    EVP_EncryptInit_ex(keys->cipher, 0, 0, 0, keys->counter);
    EVP_EncryptUpdate(keys->cipher, bytes, &written, bytes, (int)length);
}

void sign(struct keys *keys, const uint8_t *bytes, size_t length, uint8_t *signature) {
    size_t written;
    EVP_MAC_init(keys->mac, 0, 0, 0);
    EVP_MAC_update(keys->mac, bytes, length);
    EVP_MAC_final(keys->mac, signature, &written, SIGNATURE);
}
