/* The HMAC of a 48-byte record with its key kept: this library, libsodium and OpenSSL, in one run.
 * Each round times all three, in turn, so that a change of the machine's pace meets each alike. */
#include <openssl/core_names.h>
#include <openssl/evp.h>
#include <openssl/params.h>
#include <ruddelfo.h>
#include <sodium.h>
#include <stdio.h>
#include <stdlib.h>
#include <string.h>
#include <time.h>

enum { TAGS = 200000, ROUNDS = 41, PEERS = 3 };

static uint8_t key[32], record[48];
static ruddelfo_kept_key kept;
static crypto_auth_hmacsha256_state state;
static EVP_MAC_CTX *context;

static void ours(uint8_t *tag) {
    if (!ruddelfo_kept_hmac(&kept, record, sizeof record, tag, 32)) abort();
}

static void sodium(uint8_t *tag) {
    crypto_auth_hmacsha256_state s = state;
    crypto_auth_hmacsha256_update(&s, record, sizeof record);
    crypto_auth_hmacsha256_final(&s, tag);
}

static void openssl(uint8_t *tag) {
    size_t len;
    if (!EVP_MAC_init(context, NULL, 0, NULL) || !EVP_MAC_update(context, record, sizeof record) ||
        !EVP_MAC_final(context, tag, &len, 32))
        abort();
}

static void (*const makers[PEERS])(uint8_t *) = {ours, sodium, openssl};
static const char *const names[PEERS] = {"ruddelfo", "libsodium", "OpenSSL"};

/* The record changes with each tag, so that no tag can be taken over from the one before. */
static double time_of(void (*make)(uint8_t *), uint8_t *tag) {
    struct timespec a, b;
    clock_gettime(CLOCK_MONOTONIC, &a);
    for (uint32_t i = 0; i < TAGS; i++) {
        memcpy(record + 4, &i, 4);
        make(tag);
        record[12] ^= tag[0];
    }
    clock_gettime(CLOCK_MONOTONIC, &b);
    return ((b.tv_sec - a.tv_sec) * 1e9 + (b.tv_nsec - a.tv_nsec)) / TAGS;
}

static int ascending(const void *x, const void *y) {
    double a = *(const double *)x, b = *(const double *)y;
    return (a > b) - (a < b);
}

static double median(double *values) {
    qsort(values, ROUNDS, sizeof *values, ascending);
    return values[ROUNDS / 2];
}

int main(void) {
    static double times[PEERS][ROUNDS], ratios[PEERS][ROUNDS];
    uint8_t tags[PEERS][32];
    if (sodium_init() < 0) return 1;
    for (int i = 0; i < 32; i++) key[i] = (uint8_t)(7 * i + 1);
    kept = ruddelfo_keep_key(key, sizeof key);
    crypto_auth_hmacsha256_init(&state, key, sizeof key);
    EVP_MAC *mac = EVP_MAC_fetch(NULL, "HMAC", NULL);
    context = EVP_MAC_CTX_new(mac);
    OSSL_PARAM params[] = {OSSL_PARAM_construct_utf8_string(OSSL_MAC_PARAM_DIGEST, "SHA256", 0), OSSL_PARAM_construct_end()};
    if (!EVP_MAC_init(context, key, sizeof key, params)) return 1;

    for (int r = 0; r < ROUNDS; r++) {
        for (int i = 0; i < PEERS; i++) {
            int p = (r + i) % PEERS;
            memset(record, 0, sizeof record);
            times[p][r] = time_of(makers[p], tags[p]);
        }
        for (int p = 0; p < PEERS; p++) ratios[p][r] = times[0][r] / times[p][r];
    }
    if (memcmp(tags[0], tags[1], 32) || memcmp(tags[0], tags[2], 32)) return fprintf(stderr, "the tags differ\n"), 1;
    printf("HMAC of 48 bytes, key kept; medians of %d rounds of %d tags\n", ROUNDS, TAGS);
    for (int p = 0; p < PEERS; p++)
        printf("%-10s %7.1f ns a tag   ruddelfo takes %.3f of its time\n", names[p], median(times[p]), median(ratios[p]));
    return 0;
}
