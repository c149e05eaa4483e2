/*
 * Times metalog's checksum and log reader against plain C loops that do the same work, in one run.
 * First both read every input and must agree; only then are they timed, over the same bytes, in turns.
 * bench/run builds and runs this; bench/README.md says what is measured.
 */
#define _POSIX_C_SOURCE 200809L
#include <inttypes.h>
#include <stdbool.h>
#include <stddef.h>
#include <stdint.h>
#include <stdio.h>
#include <stdlib.h>
#include <string.h>
#include <time.h>

/* The functions of crates/metalog_bench. A slice is a pointer and a length. */
uint32_t metalog_crc(const uint8_t *bytes, size_t length);
size_t metalog_commits(const uint8_t *block, size_t length);
uint64_t metalog_total(const uint8_t *block, size_t length);

/* Keeps the compiler from looking into a function where it is called, as it cannot look into the library's. */
#define APART __attribute__((noipa))

enum { BLOCK = 4096, BLOCKS = 1024, ROUNDS = 15, PASSES = 16 };
#define CRC_BYTES ((size_t)64 << 20)
#define SEED 0xffffffffu

/* The plain C loops. */

static uint32_t table[256];

static void fill_table(void)
{
    for (uint32_t k = 0; k < 256; k++) {
        uint32_t c = k;
        for (int bit = 0; bit < 8; bit++)
            c = c >> 1 ^ (c & 1 ? 0xedb88320u : 0);
        table[k] = c;
    }
}

static inline uint32_t crc(uint32_t sum, const uint8_t *bytes, size_t length)
{
    for (size_t i = 0; i < length; i++)
        sum = table[(sum ^ bytes[i]) & 0xff] ^ sum >> 8;
    return sum;
}

static inline uint32_t big_endian(const uint8_t *p)
{
    return (uint32_t)p[0] << 24 | (uint32_t)p[1] << 16 | (uint32_t)p[2] << 8 | p[3];
}

static inline uint32_t little_endian(const uint8_t *p)
{
    return (uint32_t)p[3] << 24 | (uint32_t)p[2] << 16 | (uint32_t)p[1] << 8 | p[0];
}

struct log {
    size_t commits;
    uint64_t total;
};

/* The reading rule of docs/FORMAT.md, section 3.4. */
static inline struct log read_log(const uint8_t *block, size_t size)
{
    struct log log = {0, 0};
    if (size < 4)
        return log;
    size_t at = 4;
    uint32_t prior = 0xffffffffu;
    uint32_t sum = crc(SEED, block, 4);
    while (size - at >= 4) {
        uint32_t tag = big_endian(block + at) ^ prior;
        uint32_t type = tag >> 20 & 0x7ff;
        uint32_t id = tag >> 10 & 0x3ff;
        size_t length = tag & 0x3ff;
        if (tag >> 31 || size - at - 4 < length)
            break;
        if (type == 0x500 || type == 0x501) {
            if (length < 4 || crc(sum, block + at, 4) != little_endian(block + at + 4))
                break;
            log.commits += 1;
            log.total += id;
            sum = SEED;
            prior = tag | (tag >> 20 & 1) << 31;
        } else {
            log.total += (uint64_t)type + id + length;
            sum = crc(sum, block + at, 4 + length);
            prior = tag;
        }
        at += 4 + length;
    }
    return log;
}

APART static uint32_t plain_crc(const uint8_t *bytes, size_t length)
{
    return crc(SEED, bytes, length);
}

APART static size_t plain_commits(const uint8_t *block, size_t length)
{
    return read_log(block, length).commits;
}

APART static uint64_t plain_total(const uint8_t *block, size_t length)
{
    return read_log(block, length).total;
}

/* The inputs: bytes without a pattern, the same in every run, and blocks of commits over them. */

static uint64_t state = 0x9e3779b97f4a7c15u;

static uint32_t some(uint32_t below)
{
    state ^= state << 13;
    state ^= state >> 7;
    state ^= state << 17;
    return (uint32_t)((state >> 32) * below >> 32);
}

static void put_big_endian(uint8_t *p, uint32_t word)
{
    for (int i = 0; i < 4; i++)
        p[i] = (uint8_t)(word >> (24 - 8 * i));
}

static void put_little_endian(uint8_t *p, uint32_t word)
{
    for (int i = 0; i < 4; i++)
        p[i] = (uint8_t)(word >> (8 * i));
}

/* How the commits of a block are made: of few to many tags each, as far as there is room, with data of least to most bytes. */
struct shape {
    const char *name;
    uint32_t few, many, least, most;
};

/* Fills a block with commits, as long as a tag of `most` bytes and the end of a commit have room. Gives where the log ends. */
static size_t fill_block(uint8_t *block, const struct shape *shape)
{
    memset(block, 0xff, BLOCK);
    put_little_endian(block, some(1000));
    size_t at = 4, from = 0;
    uint32_t prior = 0xffffffffu;
    size_t room = 4 + shape->most + 8 + 15;
    while (at + room <= BLOCK) {
        uint32_t tags = shape->few + some(shape->many - shape->few + 1);
        for (uint32_t k = 0; k < tags && at + room <= BLOCK; k++) {
            uint32_t length = shape->least + some(shape->most - shape->least + 1);
            uint32_t tag = some(0x500) << 20 | some(0x3ff) << 10 | length;
            put_big_endian(block + at, tag ^ prior);
            for (uint32_t i = 0; i < length; i++)
                block[at + 4 + i] = (uint8_t)some(256);
            at += 4 + length;
            prior = tag;
        }
        uint32_t pad = (uint32_t)(-(at + 8) & 15);
        uint32_t tag = (0x500 + some(2)) << 20 | 0x3ff << 10 | (4 + pad);
        put_big_endian(block + at, tag ^ prior);
        put_little_endian(block + at + 4, crc(SEED, block + from, at + 4 - from));
        prior = tag | (tag >> 20 & 1) << 31;
        at += 8 + pad;
        from = at;
    }
    return at;
}

/* Both must give the same of the same bytes. */

static size_t compared;

static void compare(const uint8_t *bytes, size_t length)
{
    bool same = metalog_crc(bytes, length) == plain_crc(bytes, length) && metalog_commits(bytes, length) == plain_commits(bytes, length)
        && metalog_total(bytes, length) == plain_total(bytes, length);
    if (!same) {
        fprintf(stderr, "log: the two differ on an input of %zu bytes\n", length);
        exit(1);
    }
    compared += 1;
}

/* Whole blocks, and the first of them cut at every length, with each byte changed, erased from every place on, and made up. */
static void compare_blocks(const uint8_t *blocks)
{
    static uint8_t copy[BLOCK];
    for (size_t k = 0; k < BLOCKS; k++)
        compare(blocks + k * BLOCK, BLOCK);
    for (size_t cut = 0; cut <= BLOCK; cut++) {
        compare(blocks, cut);
        memcpy(copy, blocks, BLOCK);
        memset(copy + cut, 0xff, BLOCK - cut);
        compare(copy, BLOCK);
        memcpy(copy, blocks, BLOCK);
        copy[cut % BLOCK] ^= (uint8_t)(1 + some(255));
        compare(copy, BLOCK);
        for (size_t i = 0; i < BLOCK; i++)
            copy[i] = (uint8_t)some(256);
        compare(copy, BLOCK);
    }
}

/* The timing, in time of this process's own. */

static double seconds(void)
{
    struct timespec now;
    clock_gettime(CLOCK_PROCESS_CPUTIME_ID, &now);
    return (double)now.tv_sec + (double)now.tv_nsec * 1e-9;
}

/* One of the functions that are timed, with its number widened. */
typedef uint64_t work(const uint8_t *bytes, size_t length);

APART static uint64_t our_crc(const uint8_t *bytes, size_t length) { return metalog_crc(bytes, length); }
APART static uint64_t our_commits(const uint8_t *block, size_t length) { return metalog_commits(block, length); }
APART static uint64_t our_total(const uint8_t *block, size_t length) { return metalog_total(block, length); }
APART static uint64_t c_crc(const uint8_t *bytes, size_t length) { return plain_crc(bytes, length); }
APART static uint64_t c_commits(const uint8_t *block, size_t length) { return plain_commits(block, length); }
APART static uint64_t c_total(const uint8_t *block, size_t length) { return plain_total(block, length); }

/* The time that `run` takes for `count` runs of `size` bytes each, `passes` times over. */
APART static double time_of(work *run, const uint8_t *bytes, size_t size, size_t count, size_t passes, uint64_t *sum)
{
    double begin = seconds();
    for (size_t pass = 0; pass < passes; pass++)
        for (size_t k = 0; k < count; k++)
            *sum = *sum * 31 + run(bytes + k * size, size);
    return seconds() - begin;
}

static int ascending(const void *a, const void *b)
{
    double x = *(const double *)a, y = *(const double *)b;
    return (x > y) - (x < y);
}

/* The speed is in bytes that are read: `read` of them in each pass. */
static void measure(const char *what, const char *over, work *ours, work *plain, const uint8_t *bytes, size_t size, size_t count, size_t passes, size_t read)
{
    double our_time[ROUNDS], plain_time[ROUNDS], ratio[ROUNDS];
    uint64_t our_sum = 0, plain_sum = 0;
    for (int round = 0; round < ROUNDS; round++) {
        if (round % 2 == 0) {
            plain_time[round] = time_of(plain, bytes, size, count, passes, &plain_sum);
            our_time[round] = time_of(ours, bytes, size, count, passes, &our_sum);
        } else {
            our_time[round] = time_of(ours, bytes, size, count, passes, &our_sum);
            plain_time[round] = time_of(plain, bytes, size, count, passes, &plain_sum);
        }
        ratio[round] = plain_time[round] / our_time[round];
    }
    if (our_sum != plain_sum) {
        fprintf(stderr, "log: the two differ while timed: %s, %s\n", what, over);
        exit(1);
    }
    qsort(our_time, ROUNDS, sizeof *our_time, ascending);
    qsort(plain_time, ROUNDS, sizeof *plain_time, ascending);
    qsort(ratio, ROUNDS, sizeof *ratio, ascending);
    double all = (double)read * (double)passes;
    double our_speed = all / our_time[ROUNDS / 2], plain_speed = all / plain_time[ROUNDS / 2];
    printf("%-8s %-22s %12.0f %14.0f %8.2f   %.2f to %.2f\n", what, over, plain_speed, our_speed, our_speed / plain_speed, ratio[0], ratio[ROUNDS - 1]);
}

static uint8_t *bytes_of(size_t length)
{
    uint8_t *bytes = malloc(length);
    if (bytes == NULL) {
        fprintf(stderr, "log: no memory\n");
        exit(1);
    }
    return bytes;
}

int main(void)
{
    static const struct shape shapes[] = {
        {"commits of all sizes", 1, 8, 0, 200},
        {"many small tags", 1, 64, 0, 12},
        {"one large commit", BLOCK, BLOCK, 500, 1023},
    };
    enum { SHAPES = sizeof shapes / sizeof *shapes };
    uint8_t *blocks[SHAPES];
    size_t read[SHAPES];

    fill_table();
    uint8_t *bytes = bytes_of(CRC_BYTES);
    for (size_t i = 0; i < CRC_BYTES; i++)
        bytes[i] = (uint8_t)some(256);
    compare(bytes, CRC_BYTES);
    for (size_t s = 0; s < SHAPES; s++) {
        blocks[s] = bytes_of((size_t)BLOCK * BLOCKS);
        read[s] = 0;
        for (size_t k = 0; k < BLOCKS; k++)
            read[s] += fill_block(blocks[s] + k * BLOCK, &shapes[s]);
        compare_blocks(blocks[s]);
    }
    printf("equal on %zu inputs\n", compared);
    for (size_t s = 0; s < SHAPES; s++) {
        size_t commits = 0;
        for (size_t k = 0; k < BLOCKS; k++)
            commits += plain_commits(blocks[s] + k * BLOCK, BLOCK);
        printf("%s: %d blocks of %d bytes, %zu commits, logs of %zu bytes in all\n", shapes[s].name, BLOCKS, BLOCK, commits, read[s]);
    }

    printf("%-8s %-22s %12s %14s %8s   %s\n", "what", "over", "C, bytes/s", "ours, bytes/s", "ours/C", "in single rounds");
    measure("crc", "64 MiB", our_crc, c_crc, bytes, CRC_BYTES, 1, 1, CRC_BYTES);
    for (size_t s = 0; s < SHAPES; s++) {
        measure("commits", shapes[s].name, our_commits, c_commits, blocks[s], BLOCK, BLOCKS, PASSES, read[s]);
        measure("total", shapes[s].name, our_total, c_total, blocks[s], BLOCK, BLOCKS, PASSES, read[s]);
    }

    for (size_t s = 0; s < SHAPES; s++)
        free(blocks[s]);
    free(bytes);
    return 0;
}
