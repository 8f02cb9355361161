/*
 * Cuts a block for twelve heads, checks one fragment, loses four, and joins the block from the other eight.
 *
 * At the top of the repository, after `host/archive`:
 *
 *     cc -std=c11 -Wall -Wextra -Werror -Iinclude examples/c/cut_and_join.c target/staticlib/libabi.a -o target/cut_and_join
 *     target/cut_and_join
 */
#include <inttypes.h>
#include <stdio.h>
#include <stdlib.h>
#include <string.h>

#include "ruwekiha.h"

enum {
    HEADS = 12,
    NEEDED = 8,
    LENGTH = 100,
    SEED = 1234567,
    RECORD = 33,                            /* 18 + F, and F is 3 x (100 / 24 rounded up) */
    CHECK = 22 + 32 * HEADS + 3 * NEEDED
};

static const uint64_t NUMBER = 7;

/* Ends the program unless things are as they must be. */
static void expect(int holds, const char *what)
{
    if (!holds) {
        fprintf(stderr, "cut_and_join: %s\n", what);
        exit(EXIT_FAILURE);
    }
}

static void cut(const uint8_t *block, uint8_t *records, uint8_t *check)
{
    uint64_t size;
    expect(rwk_card_size(LENGTH, &size) == RWK_DONE && size == RECORD, "another card size");
    uint32_t number = rwk_cut_standard(SEED, NUMBER, block, LENGTH, records, HEADS * RECORD, check, CHECK);
    expect(number == RWK_DONE, "the cut was refused");
    printf("a block of %d bytes: %d records of %d bytes, a check record of %d\n", LENGTH, HEADS, RECORD, CHECK);
}

static void check_one(const uint8_t *check, uint8_t *record)
{
    uint64_t index;
    expect(rwk_check(NUMBER, check, CHECK, record, RECORD, &index) == RWK_DONE, "a good fragment was refused");
    printf("record 9: accepted, index %" PRIu64 "\n", index);
    record[RECORD - 1] ^= 1;
    uint32_t number = rwk_check(NUMBER, check, CHECK, record, RECORD, &index);
    expect(number == RWK_HASH, "a changed fragment was not refused by its hash");
    printf("record 9 with one bit changed: refused %" PRIu32 "\n", number);
    record[RECORD - 1] ^= 1;
}

/* Moves the records that are left to the front, and gives how many they are. */
static size_t lose_four(uint8_t *records)
{
    size_t left = 0;
    for (size_t head = 0; head < HEADS; head++) {
        if (head == 0 || head == 3 || head == 5 || head == 10) {
            continue;
        }
        memmove(records + left * RECORD, records + head * RECORD, RECORD);
        left++;
    }
    puts("lost the records of heads 0, 3, 5 and 10");
    return left;
}

static void join(const uint8_t *check, const uint8_t *records, size_t count, uint8_t *out)
{
    uint64_t read, indexes;
    uint32_t number = rwk_join(NUMBER, check, CHECK, records, count * RECORD, out, LENGTH, &read, &indexes);
    expect(number == RWK_DONE, "the join was refused");
    printf("joined from the other %zu: %" PRIu64 " read, %" PRIu64 " indexes\n", count, read, indexes);
}

int main(void)
{
    uint8_t block[LENGTH], records[HEADS * RECORD], check[CHECK], joined[LENGTH];
    for (size_t k = 0; k < LENGTH; k++) {
        block[k] = (uint8_t)(k * k + 17);
    }
    cut(block, records, check);
    check_one(check, records + 9 * RECORD);
    size_t left = lose_four(records);
    join(check, records, left, joined);
    expect(memcmp(block, joined, LENGTH) == 0, "another block came back");
    puts("the block is back");
    return EXIT_SUCCESS;
}
