/* Memory to lend to a call: a block that lies against a page that nobody may touch, so that a call that reads or writes beyond it ends the
 * program. The rest of the block's pages holds a pattern, which `intact` checks. Also what the drivers read and write, and a limit to the
 * time of a call. */
#ifndef FENCED_H
#define FENCED_H

#include <stdint.h>
#include <stdio.h>
#include <stdlib.h>
#include <string.h>
#include <sys/mman.h>
#include <sys/time.h>
#include <unistd.h>

enum { PATTERN = 0xa5 };

/* The side of a block on which the untouchable page lies against it. */
enum side { BEFORE, AFTER };

struct fenced {
    uint8_t *bytes;
    size_t length;
    uint8_t *pages;
    size_t room;
};

/* n bytes that hold the pattern. */
static struct fenced fence(size_t n, enum side side) {
    size_t page = (size_t)sysconf(_SC_PAGESIZE);
    size_t room = (n / page + 1) * page;
    uint8_t *all = mmap(NULL, room + 2 * page, PROT_READ | PROT_WRITE, MAP_PRIVATE | MAP_ANONYMOUS, -1, 0);
    if (all == MAP_FAILED || mprotect(all, page, PROT_NONE) != 0 || mprotect(all + page + room, page, PROT_NONE) != 0)
        exit(2);
    memset(all + page, PATTERN, room);
    return (struct fenced){all + page + (side == AFTER ? room - n : 0), n, all + page, room};
}

/* The block with a copy of the bytes, which a call may read and not write. */
static struct fenced fence_copy(const uint8_t *bytes, size_t n, enum side side) {
    struct fenced block = fence(n, side);
    memcpy(block.bytes, bytes, n);
    if (mprotect(block.pages, block.room, PROT_READ) != 0)
        exit(2);
    return block;
}

/* Whether the bytes outside the block still hold the pattern. */
static int intact(struct fenced block) {
    for (uint8_t *b = block.pages; b < block.pages + block.room; b++)
        if ((b < block.bytes || b >= block.bytes + block.length) && *b != PATTERN)
            return 0;
    return 1;
}

static void release(struct fenced block) {
    size_t page = (size_t)sysconf(_SC_PAGESIZE);
    munmap(block.pages - page, block.room + 2 * page);
}

/* Ends the program, by a signal, half a second of processor time from now; a call that walks over the largest number takes longer. */
static void limit_time(void) {
    struct itimerval limit = {{0, 0}, {0, 500000}};
    if (setitimer(ITIMER_VIRTUAL, &limit, NULL) != 0)
        exit(2);
}

/* A 4-byte number of standard input, low byte first; 0 where the input ends. */
static int read_number(uint32_t *n) {
    uint8_t b[4];
    if (fread(b, 1, 4, stdin) != 4)
        return 0;
    *n = (uint32_t)b[0] | (uint32_t)b[1] << 8 | (uint32_t)b[2] << 16 | (uint32_t)b[3] << 24;
    return 1;
}

/* n bytes of standard input. */
static uint8_t *read_bytes(size_t n) {
    uint8_t *bytes = malloc(n + 1);
    if (bytes == NULL || fread(bytes, 1, n, stdin) != n)
        exit(2);
    return bytes;
}

static void write_number(uint32_t n) {
    uint8_t b[4] = {(uint8_t)n, (uint8_t)(n >> 8), (uint8_t)(n >> 16), (uint8_t)(n >> 24)};
    fwrite(b, 1, 4, stdout);
}

#endif
