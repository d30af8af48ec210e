/* OpenSSL's primitives, where its headers are there. It chooses by itself, as it runs, the widest vectors that the processor has. */
#include <stddef.h>
#include <stdint.h>

#ifdef WITH_OPENSSL
#include <openssl/evp.h>
#include <string.h>

#define OPENSSL_HERE 1
#define OPENSSL_SAYS OPENSSL_VERSION_TEXT

static void openssl_chacha20(uint8_t *d, size_t n, const uint8_t key[32], const uint8_t nonce[12], uint32_t counter) {
    static EVP_CIPHER_CTX *ctx;
    uint8_t iv[16] = {(uint8_t)counter, (uint8_t)(counter >> 8), (uint8_t)(counter >> 16), (uint8_t)(counter >> 24)};
    int len;
    memcpy(iv + 4, nonce, 12);
    if (!ctx)
        ctx = EVP_CIPHER_CTX_new(), EVP_EncryptInit_ex(ctx, EVP_chacha20(), NULL, NULL, NULL);
    EVP_EncryptInit_ex(ctx, NULL, NULL, key, iv), EVP_EncryptUpdate(ctx, d, &len, d, (int)n);
}

static void openssl_chacha20_poly1305(uint8_t *d, size_t n, const uint8_t key[32], const uint8_t nonce[12], uint8_t tag[16]) {
    static EVP_CIPHER_CTX *ctx;
    int len;
    if (!ctx)
        ctx = EVP_CIPHER_CTX_new(), EVP_EncryptInit_ex(ctx, EVP_chacha20_poly1305(), NULL, NULL, NULL);
    EVP_EncryptInit_ex(ctx, NULL, NULL, key, nonce), EVP_EncryptUpdate(ctx, d, &len, d, (int)n);
    EVP_EncryptFinal_ex(ctx, d + len, &len), EVP_CIPHER_CTX_ctrl(ctx, EVP_CTRL_AEAD_GET_TAG, 16, tag);
}

static int openssl_blake2s(const uint8_t *m, size_t n, uint8_t out[32]) {
    static EVP_MD_CTX *ctx;
    if (!ctx)
        ctx = EVP_MD_CTX_new(), EVP_DigestInit_ex(ctx, EVP_blake2s256(), NULL);
    return EVP_DigestInit_ex(ctx, NULL, NULL) && EVP_DigestUpdate(ctx, m, n) && EVP_DigestFinal_ex(ctx, out, NULL);
}
#else
#define OPENSSL_HERE 0
#define OPENSSL_SAYS "not here (Debian package libssl-dev), so its column is empty"

static void openssl_chacha20(uint8_t *d, size_t n, const uint8_t key[32], const uint8_t nonce[12], uint32_t counter) {
    (void)d, (void)n, (void)key, (void)nonce, (void)counter;
}

static void openssl_chacha20_poly1305(uint8_t *d, size_t n, const uint8_t key[32], const uint8_t nonce[12], uint8_t tag[16]) {
    (void)d, (void)n, (void)key, (void)nonce, (void)tag;
}

static int openssl_blake2s(const uint8_t *m, size_t n, uint8_t out[32]) {
    (void)m, (void)n, (void)out;
    return 0;
}
#endif
