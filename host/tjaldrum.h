/* The functions that the static library of crate host exports, for C; a Rust host declares them alike in an `extern "C"` block.
 * What stands here is what their proved contracts in crates/host/src say. The numbers and their names are document 01's.
 * Link crates/host/out/libhost.a, which `rt lib` in crates/host writes, into a program for x86-64.
 *
 * A byte slice is two arguments, pointer and length. What the caller owes, and no proof can give: the pointer is not null, also for a
 * slice of length 0; as many bytes can be read there (a buffer to write to: also written); a buffer to write to overlaps no other slice.
 * Nothing is kept after a call, nothing is allocated, and there is no global state, so that any thread may call.
 *
 * Every answer is one number: its upper 32 bits are the number of document 01, 0 for Done; its lower 32 bits are a length, and 0 with
 * every number but 0. */
#ifndef TJALDRUM_H
#define TJALDRUM_H

#include <stddef.h>
#include <stdint.h>

#define TJALDRUM_NUMBER(answer) ((uint32_t)((answer) >> 32))
#define TJALDRUM_LENGTH(answer) ((uint32_t)(answer))

enum {
    TJALDRUM_DONE = 0,
    TJALDRUM_KEY_TOO_LONG = 4,  /* a user key over 64 bytes */
    TJALDRUM_TABLE_FULL = 8,    /* a new key that finds no free slot */
    TJALDRUM_BAD_STORE = 12,    /* bytes that cannot be decoded, or hold a user key over 64 bytes */
    TJALDRUM_BAD_REQUEST = 13   /* a buffer too short or too long, a used length over its buffer, a table of no whole slots */
};

/* The bytes of the six keys. The encoding is written to the front of out and the length is its length; bytes of out past it stay.
 * 4 if the user key has more than 64 bytes; then 13 if out is shorter than the encoding. With either out stays as it was.
 * No encoding has more than 139 bytes. Any version is taken. */
uint64_t tjaldrum_encode_next_version(uint8_t *out, size_t out_len);
uint64_t tjaldrum_encode_txn_active(uint64_t version, uint8_t *out, size_t out_len);
uint64_t tjaldrum_encode_txn_active_snapshot(uint64_t version, uint8_t *out, size_t out_len);
uint64_t tjaldrum_encode_txn_write(uint64_t version, const uint8_t *key, size_t key_len, uint8_t *out, size_t out_len);
uint64_t tjaldrum_encode_version(const uint8_t *key, size_t key_len, uint64_t version, uint8_t *out, size_t out_len);
uint64_t tjaldrum_encode_unversioned(const uint8_t *key, size_t key_len, uint8_t *out, size_t out_len);

/* The key that bytes are. TJALDRUM_FIELDS bytes are written to the front of out, numbers big-endian:
 *   byte 0        the kind: 0 NextVersion, 1 TxnActive, 2 TxnActiveSnapshot, 3 TxnWrite, 4 Version, 5 Unversioned
 *   bytes 1-8     its version, 0 for a kind that has none
 *   bytes 9-16    where in `bytes` its escaped user key begins, 0 for a kind that has none
 *   bytes 17-24   how many bytes its escaped user key has, the closing 00 00 not counted, 0 for a kind that has none
 * and the length is TJALDRUM_FIELDS; bytes of out past it stay. 13 if out is shorter than that; then 12 if the bytes are no key. With
 * either out stays as it was. */
#define TJALDRUM_FIELDS 25
uint64_t tjaldrum_decode(const uint8_t *bytes, size_t bytes_len, uint8_t *out, size_t out_len);

/* The user key of an escaped string without its closing 00 00, as tjaldrum_decode places it. It is written to the front of out and the
 * length is its length; bytes of out past it stay. 12 if a 00 is not followed by ff or the user key has more than 64 bytes; then 13 if
 * out is shorter than the user key. With either out stays as it was. 64 bytes always suffice. */
uint64_t tjaldrum_unescape(const uint8_t *escaped, size_t escaped_len, uint8_t *out, size_t out_len);

/* The table of a log whose first `used` bytes count. Each slot of the table is twelve bytes, three big-endian words: the offset of the
 * key's entry in the log plus 1, the length of the key, the length of the value. The slots of all live keys stand at the table's front,
 * in byte order of the keys; every byte past them is 0. What the table held before does not matter. The length is the used length that
 * is left: `used`, or the start of the first entry that runs past it.
 * 13 if the log is longer than 16,777,216 bytes, `used` is over its length, or the table's length is no multiple of twelve; then 8 at
 * the first entry whose new key finds no free slot. With either every byte of the table is 0.
 * A new key's slot is moved into its place when its entry is met: keys in order take time with the log's length, keys in no order, and logs
 * with many deleted keys, in the square of the number of keys. */
uint64_t tjaldrum_open(const uint8_t *log, size_t log_len, size_t used, uint8_t *table, size_t table_len);

#endif
