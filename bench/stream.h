// The stream of calls that every contestant gets, the digest of its contents, and the program around it.
// The proved store has the same in crates/bench/src/stream.rt.
#ifndef STREAM_H
#define STREAM_H
#include <inttypes.h>
#include <stdbool.h>
#include <stdint.h>
#include <stdio.h>
#include <stdlib.h>
#include <sys/stat.h>

#define SEED UINT64_C(88172645463325252)

typedef struct {
    uint64_t pages, slots, width, disks, ring, transactions, restarts;
} plan;

// A number of updates in each transaction; one transaction in fifty aborts.
enum { UPDATES = 3, ABORTS = 50 };

static inline uint64_t next(uint64_t x) {
    x ^= x << 13;
    x ^= x >> 7;
    x ^= x << 17;
    return x;
}

// A number below n, from the low half of r.
static inline uint64_t pick(uint64_t r, uint64_t n) { return (r & 0xffffffff) * n >> 32; }

// A slot's new value: word k is r XOR k.
static inline void spread(uint64_t *value, uint64_t width, uint64_t r) {
    for (uint64_t k = 0; k < width; k++) value[k] = r ^ k;
}

// A digest of the page memory.
static inline uint64_t digest(const uint64_t *words, uint64_t n) {
    uint64_t d = SEED;
    for (uint64_t i = 0; i < n; i++) d = next(d ^ words[i]);
    return d;
}

static inline void line(const char *name, uint64_t number) { printf("%s %" PRIu64 "\n", name, number); }

static inline void die(const char *what) {
    fprintf(stderr, "%s\n", what);
    exit(1);
}

// The sizes from standard input; every page has the same slots.
static inline plan read_plan(void) {
    plan p;
    if (scanf("%" SCNu64 "%" SCNu64 "%" SCNu64 "%" SCNu64 "%" SCNu64 "%" SCNu64 "%" SCNu64, &p.pages, &p.slots, &p.width,
              &p.disks, &p.ring, &p.transactions, &p.restarts) != 7)
        die("seven numbers: pages slots width disks ring transactions restarts");
    if (p.pages < 1 || p.pages > 64 || p.width < 1 || p.width > 32 || p.slots < 1 || p.slots * p.width > 128 || p.disks < 1 ||
        p.disks > 8 || p.ring < 128 || p.ring > 65536)
        die("sizes out of bounds");
    return p;
}

// Bytes that this process wrote by system calls, from the kernel's own count.
static inline uint64_t written_bytes(void) {
    char name[32];
    uint64_t number, found = 0;
    FILE *f = fopen("/proc/self/io", "r");
    if (!f) return 0;
    while (fscanf(f, "%31s %" SCNu64, name, &number) == 2)
        if (name[0] == 'w' && name[1] == 'c') found = number;
    fclose(f);
    return found;
}

// Bytes that a file takes up.
static inline uint64_t file_bytes(const char *path) {
    struct stat s;
    return stat(path, &s) ? 0 : (uint64_t)s.st_blocks * 512;
}
#endif
