/*
 * Ruwekiha for C and C++: cut a block into n fragment records and a check record, check one record, join the block from any m of them.
 *
 * Every function takes whatever bytes and numbers it is handed and gives one of the numbers below.
 *
 * - A buffer is a pointer and a length in bytes. Null is fine with length 0.
 * - Buffers may not overlap each other, nor the places that the value pointers name.
 * - The value pointers (`uint64_t *`) must not be null, and must name different places. They are always written, with 0 where there is
 *   no value.
 * - On a refusal, any number but 0, no lent buffer changes.
 *
 * F, the length of a body, is 3 x (L / (3m) rounded up) for a block of L bytes. A fragment record has 18 + F bytes, a check record
 * 22 + 32n + 3m.
 */
#ifndef RUWEKIHA_H
#define RUWEKIHA_H

#include <stddef.h>
#include <stdint.h>

#ifdef __cplusplus
extern "C" {
#endif

/* What comes back. Where several apply, the first in the order that stands at the function. */
enum {
    RWK_DONE = 0,            /* done, or accepted */
    RWK_COUNTS = 1,          /* m or n out of bounds in a cut */
    RWK_TOO_LONG = 2,        /* block over 65,536 bytes; a body to be hashed or fingerprinted over 65,538 */
    RWK_SEED = 3,            /* seed over 16,777,215 */
    RWK_LENGTH = 4,          /* a lent buffer has another length than stated; a body to be fingerprinted isn't a multiple of 3 */
    RWK_CHECK_MARK = 5,      /* check record under 5 bytes, or wrong mark or version */
    RWK_CHECK_SHAPE = 6,     /* check record under 22 bytes; its m, n or L out of bounds; or its length not as above */
    RWK_OTHER_BLOCK = 7,     /* check record has another number than the wanted block */
    RWK_FRAGMENT_SHAPE = 8,  /* fragment record under 18 bytes; wrong mark or version; its F field or length not that of the check record */
    RWK_OTHER_NUMBER = 9,    /* fragment has another block number */
    RWK_NO_SUCH_HEAD = 10,   /* fragment index not below n */
    RWK_HASH = 11,           /* hash differs */
    RWK_FINGERPRINT = 12,    /* body doesn't match the check record's fingerprints */
    RWK_TOO_FEW = 13,        /* fewer than m accepted fragments with different indexes */
    RWK_FILL = 14            /* a fill byte of the joined block isn't zero */
};

/* The bounds: blocks of 0 to 65,536 bytes, 1 <= m <= n <= 64, seeds from 0 to 16,777,215. */
#define RWK_LONGEST_BLOCK 65536
#define RWK_MOST_FRAGMENTS 64
#define RWK_LARGEST_SEED 16777215

/*
 * Cuts a block, whose block number is `number`, so that any m of its n fragments give it back. `fragments` has n x (18 + F) bytes and
 * gets the n records in the order of their indexes; `check` has 22 + 32n + 3m bytes and gets the check record. Numbers: 1, 2, 3, 4,
 * or 0.
 */
uint32_t rwk_cut(uint32_t m, uint32_t n, uint32_t seed, uint64_t number, const uint8_t *block, size_t block_len,
                 uint8_t *fragments, size_t fragments_len, uint8_t *check, size_t check_len);

/* The same in the standard setting, m = 8 and n = 12. Numbers: 2, 3, 4, or 0. */
uint32_t rwk_cut_standard(uint32_t seed, uint64_t number, const uint8_t *block, size_t block_len,
                          uint8_t *fragments, size_t fragments_len, uint8_t *check, size_t check_len);

/*
 * How many bytes a card has to hold for a block of `length` bytes in the standard setting. `size` gets 18 + F, or 0 beside a refusal.
 * Numbers: 2, or 0.
 */
uint32_t rwk_card_size(uint64_t length, uint64_t *size);

/*
 * Checks one fragment record of the wanted block against its check record, both of any length. `value` gets the index of an accepted
 * one, with 9 the block number found, and 0 with any other number. Numbers: 5 to 12, or 0.
 */
uint32_t rwk_check(uint64_t wanted, const uint8_t *check, size_t check_len, const uint8_t *record, size_t record_len,
                   uint64_t *value);

/*
 * Checks as rwk_check does, and gives the body as a part of the lent record, with no copy: `start` gets its first byte's place, from
 * 0, and `length` its length. With a refusal both get 0. Numbers: 5 to 12, or 0.
 */
uint32_t rwk_open(uint64_t wanted, const uint8_t *check, size_t check_len, const uint8_t *record, size_t record_len,
                  uint64_t *start, uint64_t *length);

/*
 * Joins the wanted block from records that stand end to end, at most n of them, each of 18 + F bytes; refused and repeated ones are
 * passed over. `out` has exactly L bytes and gets the block. `read` gets how many records were read, up to the last one used, and
 * `indexes` how many different indexes were accepted: m with 0 and 14; with 13 all are read. Both get 0 with any other number.
 * Numbers: 5, 6, 7, 4, 13, 14, or 0.
 */
uint32_t rwk_join(uint64_t wanted, const uint8_t *check, size_t check_len, const uint8_t *records, size_t records_len,
                  uint8_t *out, size_t out_len, uint64_t *read, uint64_t *indexes);

/* The SHA-256 of a body of at most 65,538 bytes. `digest` has 32 bytes and gets it. Numbers: 2, 4, or 0. */
uint32_t rwk_sha256(const uint8_t *body, size_t body_len, uint8_t *digest, size_t digest_len);

/*
 * The fingerprint at a seed of a body of at most 65,538 bytes, a multiple of 3. `column` has 3 bytes and gets it. Numbers: 2, 3, 4,
 * or 0.
 */
uint32_t rwk_fingerprint(uint32_t seed, const uint8_t *body, size_t body_len, uint8_t *column, size_t column_len);

#ifdef __cplusplus
}
#endif

#endif
