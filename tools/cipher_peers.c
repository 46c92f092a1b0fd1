/* What tools/measure_cipher.py measures beside our cipher: OpenSSL's and libsodium's ChaCha20-Poly1305, over texts of 64 KiB and of 1 KiB.
   Prints for each work and length the picoseconds a byte of its best sample, as crates/bench does; a sample works over 64 KiB.
   cc -O2 -o cipher_peers cipher_peers.c -lcrypto -lsodium; cipher_peers openssl|sodium */
#include <openssl/evp.h>
#include <sodium.h>
#include <stdio.h>
#include <string.h>
#include <time.h>

enum { TEXT = 65536, SAMPLES = 2000 };
static unsigned char key[32], nonce[12], bytes[TEXT], tags[64][16];
static EVP_CIPHER_CTX *sealing, *opening;

static unsigned long long nanos(void) {
    struct timespec at;
    clock_gettime(CLOCK_MONOTONIC, &at);
    return 1000000000ULL * at.tv_sec + at.tv_nsec;
}

static int openssl_seal(unsigned char *text, int length, unsigned char *tag) {
    int n;
    return EVP_EncryptInit_ex(sealing, NULL, NULL, key, nonce) && EVP_EncryptUpdate(sealing, text, &n, text, length)
        && EVP_EncryptFinal_ex(sealing, text + n, &n) && EVP_CIPHER_CTX_ctrl(sealing, EVP_CTRL_AEAD_GET_TAG, 16, tag);
}

static int openssl_open(unsigned char *text, int length, unsigned char *tag) {
    int n;
    return EVP_DecryptInit_ex(opening, NULL, NULL, key, nonce) && EVP_CIPHER_CTX_ctrl(opening, EVP_CTRL_AEAD_SET_TAG, 16, tag)
        && EVP_DecryptUpdate(opening, text, &n, text, length) && EVP_DecryptFinal_ex(opening, text + n, &n);
}

static int sodium_seal(unsigned char *text, int length, unsigned char *tag) {
    return crypto_aead_chacha20poly1305_ietf_encrypt_detached(text, tag, NULL, text, length, NULL, 0, NULL, nonce, key) == 0;
}

static int sodium_open(unsigned char *text, int length, unsigned char *tag) {
    return crypto_aead_chacha20poly1305_ietf_decrypt_detached(text, NULL, text, length, tag, NULL, 0, nonce, key) == 0;
}

typedef int work(unsigned char *, int, unsigned char *);

static int over_all(work *w, int length) {
    for (int at = 0; at < TEXT; at += length)
        if (!w(bytes + at, length, tags[at / length])) return 0;
    return 1;
}

static int measure(const char *name, work *before, work *timed, int length) {
    unsigned long long best = ~0ULL;
    for (int i = 0; i < SAMPLES; i++) {
        if (before && !over_all(before, length)) return 0;
        unsigned long long start = nanos();
        if (!over_all(timed, length)) return 0;
        unsigned long long took = nanos() - start;
        if (took < best) best = took;
    }
    printf("%s %d %llu\n", name, length, best * 1000 / TEXT);
    return 1;
}

int main(int count, char **words) {
    int is_sodium = count > 1 && !strcmp(words[1], "sodium"), lengths[] = {65536, 1024};
    for (int i = 0; i < 32; i++) key[i] = i;
    sealing = EVP_CIPHER_CTX_new();
    opening = EVP_CIPHER_CTX_new();
    if (sodium_init() < 0 || !EVP_EncryptInit_ex(sealing, EVP_chacha20_poly1305(), NULL, NULL, NULL)
        || !EVP_DecryptInit_ex(opening, EVP_chacha20_poly1305(), NULL, NULL, NULL)) return 1;
    for (int i = 0; i < 2; i++) {
        work *seal = is_sodium ? sodium_seal : openssl_seal, *open = is_sodium ? sodium_open : openssl_open;
        if (!measure("seal", NULL, seal, lengths[i]) || !measure("open", seal, open, lengths[i])) return 1;
    }
    return 0;
}
