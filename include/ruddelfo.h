/* What a host calls. Every function ends, and reads and writes only the buffers that it is handed.
 * A buffer is a pointer and its length in bytes; the pointer is never null, also where the length is 0.
 * A buffer that is written overlaps no other buffer of the call. */
#ifndef RUDDELFO_H
#define RUDDELFO_H

#include <stdbool.h>
#include <stddef.h>
#include <stdint.h>

#ifdef __cplusplus
extern "C" {
#endif

/* The number of the question that was answered with no, its layer and its place (docs/RECORDS.md).
 * All are 0 where the check passed. */
typedef struct { uint32_t number, layer, place; } ruddelfo_answer;

/* Checks a record of 48 bytes and its tag of 32 at the group-key device of a group size, an owner and
 * a key of 32 bytes. */
ruddelfo_answer ruddelfo_check(uint32_t size, uint32_t owner, const uint8_t *key, size_t key_len,
                               const uint8_t *record, size_t record_len, const uint8_t *tag, size_t tag_len);

/* Each writes 32 bytes to out and gives true; where out_len is not 32 it writes nothing and gives false. */
bool ruddelfo_sha256(const uint8_t *bytes, size_t len, uint8_t *out, size_t out_len);
bool ruddelfo_hmac(const uint8_t *key, size_t key_len, const uint8_t *bytes, size_t len, uint8_t *out, size_t out_len);

/* An HMAC key with what depends on the key alone already hashed: for many short texts under one key.
 * It is as secret as the key. */
typedef struct { uint32_t inner[8], outer[8]; } ruddelfo_kept_key;

ruddelfo_kept_key ruddelfo_keep_key(const uint8_t *key, size_t key_len);
bool ruddelfo_kept_hmac(const ruddelfo_kept_key *key, const uint8_t *bytes, size_t len, uint8_t *out, size_t out_len);

#ifdef __cplusplus
}
#endif

#endif
