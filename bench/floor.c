// The floor: the same scheme in plain C, written for speed. The same devices, records, stores and log words as the proved store, with no
// test of what is handed in, no refusal but the one for log room, and no allowance: every call runs to its end.
#include "stream.h"
#include <string.h>

enum { PAGES = 64, DISKS = 8, BUFFER = 64, PLACES = 16, WORDS = 8192, RING = 65536 };
enum { UPDATE, COMPENSATION, COMMIT, ABORT };

// The devices: what a power failure leaves.
static uint64_t anchor[148], backups[2 * WORDS], logs[DISKS * (RING + 1)];

// The memory, which it takes.
static uint64_t memory[WORDS], owners[WORDS], buffers[DISKS][BUFFER], copies[PAGES];
static uint64_t heads[DISKS];  // the tails, as indices of the rings
static uint64_t starts[DISKS], tails[DISKS], fills[DISKS], ends[DISKS], reserved[DISKS];
static uint64_t epoch, next_number, stores, ones;

// An open transaction; one without an update has no first record.
typedef struct {
    uint64_t number, disk, first, words;
} transaction;
static transaction open_ones[PLACES];

// Sizes; every page has the same.
static uint64_t pages, slots, width, disks, ring, page_words, all_words;

static inline uint64_t *disk_of(uint64_t disk) { return logs + disk * (ring + 1); }

// The index in the ring n words after `at`.
static inline uint64_t after(uint64_t at, uint64_t n) { return at + n < ring ? at + n : at + n - ring; }

// The words of the record at an index, in one piece.
static inline const uint64_t *record_at(const uint64_t *words, uint64_t at, uint64_t *piece) {
    uint64_t n = 3 + width;
    if (at + n <= ring) return words + at;
    for (uint64_t k = 0; k < n; k++) piece[k] = words[after(at, k)];
    return piece;
}

static void flush(uint64_t disk) {
    uint64_t n = fills[disk], *tail = disk_of(disk), *words = tail + 1;
    if (n == 0) return;
    uint64_t at = heads[disk], before = ring - at < n ? ring - at : n;
    memcpy(words + at, buffers[disk], before * 8);
    if (before < n) memcpy(words, buffers[disk] + before, (n - before) * 8);
    heads[disk] = after(at, n);
    tails[disk] += n;
    *tail = tails[disk];
    fills[disk] = 0;
    stores += n + 1;
}

// Room for a record of n words in the buffer of a disk, which is flushed where it has too few free words.
static inline uint64_t *append(uint64_t disk, uint64_t n) {
    if (fills[disk] + n > BUFFER) flush(disk);
    uint64_t *record = buffers[disk] + fills[disk];
    fills[disk] += n;
    return record;
}

static inline uint64_t head(uint64_t kind, uint64_t page, uint64_t slot) {
    return kind + 8 * page + 512 * slot + 65536 * width;
}

static inline bool has_room(uint64_t disk, uint64_t need) {
    return tails[disk] + fills[disk] - starts[disk] + reserved[disk] + need <= ring;
}

static inline transaction *place_of(uint64_t number) {
    transaction *t = open_ones;
    while (t->number != number) t++;
    return t;
}

// The bits of a word that are 1. (gcc's own count is a call of a function here.)
static inline uint64_t bits(uint64_t x) {
    x -= x >> 1 & 0x5555555555555555;
    x = (x & 0x3333333333333333) + (x >> 2 & 0x3333333333333333);
    x = (x + (x >> 4)) & 0x0f0f0f0f0f0f0f0f;
    return x * 0x0101010101010101 >> 56;
}

static void format(void) {
    memset(anchor, 0, sizeof anchor);
    anchor[0] = pages, anchor[1] = disks, anchor[2] = ring;
    for (uint64_t i = 0; i < pages; i++) anchor[4 + i] = slots, anchor[68 + i] = width, copies[i] = 1;
    for (uint64_t d = 0; d < disks; d++) *disk_of(d) = 0;
    memset(backups + all_words, 0, all_words * 8);
    anchor[3] = epoch = 1;
    next_number = 1;
}

// The blocks of 16 words that a disk's buffered words start.
static uint64_t blocks(uint64_t disk) {
    return (fills[disk] + 15) / 16;
}

// The number of a new transaction, 0 where no disk has room.
static uint64_t begin(void) {
    uint64_t best = disks;
    for (uint64_t d = 0; d < disks; d++)
        if (has_room(d, 2) && (best == disks || blocks(d) < blocks(best))) best = d;
    if (best == disks) return 0;
    *place_of(0) = (transaction){next_number, best, 0, 0};
    reserved[best] += 2;
    return next_number++;
}

// False where the disk has no room. Slots are held by numbers of open transactions; the stream opens one at a time, so a slot is
// never held by another.
static bool update(uint64_t number, uint64_t page, uint64_t slot, const uint64_t *value) {
    transaction *t = place_of(number);
    uint64_t n = 3 + width, disk = t->disk;
    if (!has_room(disk, 2 * n)) return false;
    if (t->words == 0) t->first = tails[disk] + fills[disk];
    t->words += n;
    reserved[disk] += n;
    uint64_t *record = append(disk, n), at = page * page_words + slot * width, *target = memory + at;
    record[0] = head(UPDATE, page, slot);
    record[1] = number;
    record[2] = copies[page];
    uint64_t count = 0;
    for (uint64_t k = 0; k < width; k++) {
        uint64_t word = target[k] ^ value[k];
        record[3 + k] = word;
        target[k] = value[k];
        count += bits(word);
    }
    ones += count;
    owners[at] = number;
    return true;
}

static void close_with(uint64_t kind, uint64_t number) {
    transaction *t = place_of(number);
    uint64_t disk = t->disk, *record = append(disk, 2);
    record[0] = kind;
    record[1] = number;
    reserved[disk] -= 2 + t->words;
    t->number = 0;
}

static void commit(uint64_t number) {
    uint64_t disk = place_of(number)->disk;
    close_with(COMMIT, number);
    flush(disk);
}

// The word at a position of a disk's log: of the ring, or from the tail on of the buffer.
static inline uint64_t word_at(uint64_t disk, uint64_t p) {
    return p < tails[disk] ? disk_of(disk)[1 + p % ring] : buffers[disk][p - tails[disk]];
}

// The compensation of the update at a position.
static void undo(uint64_t disk, uint64_t number, uint64_t p) {
    uint64_t w = word_at(disk, p), page = w / 8 % 64, slot = w / 512 % 128, difference[32], count = 0;
    for (uint64_t k = 0; k < width; k++) difference[k] = word_at(disk, p + 3 + k), count += bits(difference[k]);
    ones += count;
    uint64_t *record = append(disk, 3 + width), *target = memory + page * page_words + slot * width;
    record[0] = head(COMPENSATION, page, slot);
    record[1] = number;
    record[2] = copies[page];
    for (uint64_t k = 0; k < width; k++) {
        record[3 + k] = difference[k];
        target[k] ^= difference[k];
    }
}

// The updates' positions are gathered first, then taken back from the newest on.
static void abort_transaction(uint64_t number) {
    transaction *t = place_of(number);
    uint64_t disk = t->disk, n = t->words / (3 + width), found = 0;
    uint64_t positions[n + 1];
    for (uint64_t p = t->first; found < n;) {
        bool change = word_at(disk, p) % 8 < COMMIT;
        if (word_at(disk, p) % 8 == UPDATE && word_at(disk, p + 1) == number) positions[found++] = p;
        p += change ? 3 + width : 2;
    }
    while (found) undo(disk, number, positions[--found]);
    close_with(ABORT, number);
}

static void checkpoint(void) {
    uint64_t n = epoch + 1;
    for (uint64_t d = 0; d < disks; d++) ends[d] = tails[d] + fills[d];
    for (uint64_t i = 0; i < pages; i++) {
        memcpy(backups + n % 2 * all_words + i * page_words, memory + i * page_words, page_words * 8);
        copies[i] = n;
    }
    for (uint64_t d = 0; d < disks; d++) flush(d);
    memcpy(starts, ends, sizeof starts);
    for (transaction *t = open_ones; t < open_ones + PLACES; t++)
        if (t->number && t->words && t->first < starts[t->disk]) starts[t->disk] = t->first;
    memcpy(anchor + 132 + n % 2 * 8, starts, disks * 8);
    anchor[3] = epoch = n;
    stores += all_words + disks + 1;
}

static inline uint64_t words_of(uint64_t head_word) { return head_word % 8 < COMMIT ? 3 + width : 2; }

// Is a transaction closed from a position on? `until` is where its close was found.
static bool closed_from(uint64_t disk, uint64_t p, uint64_t at, uint64_t number, uint64_t *until) {
    const uint64_t *words = disk_of(disk) + 1;
    for (uint64_t n; p < tails[disk]; p += n, at = after(at, n)) {
        uint64_t w = words[at];
        n = words_of(w);
        if (w % 8 >= COMMIT && words[after(at, 1)] == number) return *until = p, true;
    }
    return false;
}

// Replays a disk's retained log; answers its records. What was found of a transaction holds for its next records too, up to its close.
static uint64_t replay_log(uint64_t disk) {
    const uint64_t *words = disk_of(disk) + 1;
    uint64_t records = 0, known = 0, until = 0, at = starts[disk] % ring, piece[35];
    bool closed = false;
    for (uint64_t p = starts[disk], n; p < tails[disk]; p += n, at = after(at, n), records++) {
        const uint64_t *r = record_at(words, at, piece);
        uint64_t w = r[0], number = r[1];
        n = words_of(w);
        if (w % 8 >= COMMIT) continue;
        if (number != known || p > until) {
            closed = closed_from(disk, p + n, after(at, n), number, &until);
            if (!closed) until = tails[disk];
            known = number;
        }
        if (closed == (r[2] < epoch)) continue;
        uint64_t *target = memory + w / 8 % 64 * page_words + w / 512 % 128 * width;
        for (uint64_t k = 0; k < width; k++) target[k] ^= r[3 + k];
    }
    return records;
}

static bool well_formed(uint64_t w, uint64_t number) {
    if (w % 8 > ABORT || number == 0) return false;
    if (w % 8 >= COMMIT) return w / 8 == 0;
    return w / 8 % 64 < pages && w / 512 % 128 < slots && w / 65536 == width;
}

// Every retained record is well formed: what restart begin checks.
static void check_log(uint64_t disk) {
    const uint64_t *words = disk_of(disk) + 1;
    uint64_t p = starts[disk], at = p % ring, n;
    for (; p < tails[disk]; p += n, at = after(at, n)) {
        n = words_of(words[at]);
        if (!well_formed(words[at], words[after(at, 1)])) die("malformed record");
    }
    if (p != tails[disk]) die("malformed record");
}

// A restart but for its end: the power failure has taken the memory.
static uint64_t replay(void) {
    uint64_t records = 0;
    epoch = anchor[3];
    memcpy(starts, anchor + 132 + epoch % 2 * 8, disks * 8);
    for (uint64_t d = 0; d < disks; d++) tails[d] = *disk_of(d), fills[d] = 0, check_log(d);
    memset(memory, 0, all_words * 8);
    for (uint64_t d = 0; d < disks; d++) records += replay_log(d);
    for (uint64_t i = 0; i < all_words; i++) memory[i] ^= backups[epoch % 2 * all_words + i];
    return records;
}

static void finish_restart(void) {
    uint64_t n = epoch + 1;
    memcpy(backups + n % 2 * all_words, memory, all_words * 8);
    memcpy(anchor + 132 + n % 2 * 8, tails, disks * 8);
    memcpy(starts, tails, sizeof starts);
    anchor[3] = epoch = n;
    memset(owners, 0, sizeof owners);
    memset(open_ones, 0, sizeof open_ones);
    memset(reserved, 0, sizeof reserved);
    for (uint64_t i = 0; i < pages; i++) copies[i] = n;
    next_number = 1;
}

int main(void) {
    plan p = read_plan();
    pages = p.pages, slots = p.slots, width = p.width, disks = p.disks, ring = p.ring;
    page_words = slots * width, all_words = pages * page_words;
    memset(logs, 1, sizeof logs);  // all of the devices is there from the start, as in the proved store's program
    format();
    stores = 0;
    uint64_t r = SEED, aborts = 0, checkpoints = 0, value[32];
    for (uint64_t i = 0; i < p.transactions; i++) {
        r = next(r);
        bool aborting = r % ABORTS == 0;
        uint64_t number = begin();
        if (number == 0) checkpoint(), checkpoints++, number = begin();
        for (int k = 0; k < UPDATES; k++) {
            r = next(r);
            spread(value, width, r);
            uint64_t page = pick(r >> 32, pages), slot = pick(r, slots);
            if (!update(number, page, slot, value)) {
                checkpoint(), checkpoints++;
                if (!update(number, page, slot, value)) die("no room");
            }
        }
        r = next(r);
        if (aborting) abort_transaction(number), aborts++;
        else commit(number);
    }
    uint64_t words = 0;
    for (uint64_t d = 0; d < disks; d++) words += tails[d];
    line("transactions", p.transactions);
    line("aborts", aborts);
    line("checkpoints", checkpoints);
    line("stores", stores);
    line("ones", ones);
    line("words", words);
    line("before", digest(memory, all_words));
    if (p.restarts == 0) return 0;
    uint64_t records = 0;
    for (uint64_t i = 0; i < p.restarts; i++) records = replay();
    finish_restart();
    line("records", records);
    line("after", digest(memory, all_words));
}
