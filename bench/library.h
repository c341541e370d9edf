/* What bench/lib.rt.in exports. A slice crosses as a pointer and a length. */
#ifndef LIBRARY_H
#define LIBRARY_H
#include <stddef.h>
#include <stdint.h>

typedef const uint8_t *octets;

/* A slice's two arguments: of a text, of an array, and of one with no room. */
#define TEXT(text) (octets)(text), sizeof(text) - 1
#define ARRAY(array) (array), sizeof(array)
#define NO_ROOM (uint8_t *)"", 0

size_t bench_aes_encrypt(octets key, size_t, uint64_t count, uint8_t *block, size_t);
size_t bench_aes_decrypt(octets key, size_t, uint64_t count, uint8_t *block, size_t);
size_t bench_des_encrypt(octets key, size_t, uint64_t count, uint8_t *block, size_t);
size_t bench_des_decrypt(octets key, size_t, uint64_t count, uint8_t *block, size_t);
size_t bench_n_fold(octets input, size_t, uint32_t size, uint8_t *out, size_t);
size_t bench_encrypt_cbc(octets key, size_t, octets plain, size_t, uint8_t *out, size_t);
size_t bench_decrypt_cbc(octets key, size_t, octets sealed, size_t, uint8_t *out, size_t);
size_t bench_encrypt_cts(octets key, size_t, octets plain, size_t, uint8_t *out, size_t);
size_t bench_decrypt_cts(octets key, size_t, octets sealed, size_t, uint8_t *out, size_t);
size_t bench_hash(size_t size, octets payload, size_t, uint8_t *out, size_t);
size_t bench_hmac(size_t size, octets key, size_t, octets payload, size_t, uint8_t *out, size_t);
size_t bench_checksum(size_t etype, octets key, size_t, int32_t usage, octets payload, size_t, uint8_t *out,
                      size_t);
size_t bench_derive_key(size_t etype, octets key, size_t, octets constant, size_t, uint8_t *out, size_t);
size_t bench_seal(size_t etype, octets key, size_t, int32_t usage, octets confounder, size_t, octets payload,
                  size_t, uint8_t *out, size_t);
size_t bench_open(size_t etype, octets key, size_t, int32_t usage, octets sealed, size_t, uint8_t *out,
                  size_t);
size_t bench_string_to_key(size_t etype, octets password, size_t, octets salt, size_t, uint8_t *out, size_t);
size_t bench_read_part(octets input, size_t);
size_t bench_read_pac(octets input, size_t);
size_t bench_write_part(octets input, size_t, uint64_t count, uint8_t *out, size_t);
size_t bench_seal_part(size_t etype, octets key, size_t, int32_t usage, octets confounder, size_t,
                       octets input, size_t, uint64_t count, uint8_t *out, size_t);
size_t bench_open_part(size_t etype, octets key, size_t, int32_t usage, octets sealed, size_t);

/* What bench/prepared.rt.in exports; absent where a copy of the library has no keys that are made once. */
#define MAYBE __attribute__((weak))
MAYBE size_t bench_encryption_key(octets key, size_t, uint64_t count, uint8_t *block, size_t);
MAYBE size_t bench_decryption_key(octets key, size_t, uint64_t count, uint8_t *block, size_t);
MAYBE size_t bench_table_encrypt(octets key, size_t, uint64_t count, uint8_t *block, size_t);
MAYBE size_t bench_table_decrypt(octets key, size_t, uint64_t count, uint8_t *block, size_t);
MAYBE size_t bench_kept_seal(size_t etype, octets key, size_t, int32_t usage, octets confounder, size_t, octets payload,
                             size_t, uint64_t count, uint8_t *out, size_t);
MAYBE size_t bench_kept_open(size_t etype, octets key, size_t, int32_t usage, octets sealed, size_t, uint64_t count,
                             uint8_t *out, size_t);
MAYBE size_t bench_kept_checksum(size_t etype, octets key, size_t, int32_t usage, octets payload, size_t, uint64_t count,
                                 uint8_t *out, size_t);
MAYBE uint64_t bench_kept_verify(size_t etype, octets key, size_t, int32_t usage, octets payload, size_t, octets checksum,
                                 size_t, uint64_t count);
MAYBE size_t bench_kept_seal_part(size_t etype, octets key, size_t, int32_t usage, octets confounder, size_t, octets input,
                                  size_t, uint64_t count, uint8_t *out, size_t);
MAYBE size_t bench_kept_open_part(size_t etype, octets key, size_t, int32_t usage, octets sealed, size_t, uint64_t count);
#endif
