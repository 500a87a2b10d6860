/* fkv: a key-value store for one thread, from C.
 *
 * A store keeps a number for each name, in memory, and changes it by inputs: sums, maxima, capped sums or counts; or it keeps 64 bytes for
 * each name, which are written, read and removed. The library is written and proved in Rattle: what each call does is a contract of its function in crates/fkv_c, which the checker proves. The contracts assume
 * that the caller owes what stands here as "owed". Nothing checks that.
 *
 * Link with crates/fkv_c/out/libfkv_c.a, and behind it liblibc_c.a of the kit (libc/c/heap.c, which calls malloc, realloc and free).
 *
 *     fkv_handle store = FKV_CLOSED;
 *     fkv_settings settings = FKV_SETTINGS;
 *     fkv_answer answer;
 *     fkv_open(&store, FKV_SUM, &settings);
 *     fkv_rmw(&store, "apples", 6, 5, &answer);     // answer.value.low is 5
 *     fkv_close(&store);
 *
 * Owed, of every call:
 * - A pointer is null, or points to a value of its type that is all the caller's own: no other thread, callback or signal handler reads
 *   or writes it during the call, and no two pointers of one call lead to the same memory (two handles that are one are told).
 * - A handle began as FKV_CLOSED, and was written by these calls alone. It is not copied: a copy of an open handle is not a handle.
 * - A handle stays on the thread that opened it. Different handles may be used by different threads.
 * - The name's pointer leads to `length` bytes that can be read, even where `length` is 0 or more than 31; below 2^63.
 * - malloc, realloc and free come from one allocator, which aligns a block to 16 bytes; no call is made from a signal handler, or in
 *   the forked child of a process with threads.
 *
 * Each call returns a status: FKV_DONE, or why it has done nothing. Where it has done nothing, what the caller's pointers lead to is
 * left as it was, and the store is the map that it was and can be used on.
 */
#ifndef FKV_H
#define FKV_H

#include <stddef.h>
#include <stdint.h>

#ifdef __cplusplus
extern "C" {
#endif

/* Statuses. 1 to 20 are the store's own refusals, of which those that are named here can come (docs/refusals.md says what each means). */
enum {
    FKV_DONE = 0,
    FKV_NO_MEMORY = 1,    /* memory was asked for and refused: free some, and call again */
    FKV_BAD_CONFIG = 2,   /* of fkv_open alone: a number of the settings is outside its limits */
    FKV_WORN = 10,        /* no address or no two moments are left */
    FKV_DEVICE = 11,      /* never: no page in memory fails to be written or read */
    FKV_DAMAGED = 12,     /* never */
    FKV_STALLED = 13,     /* never: an operation that finds no room makes some */
    FKV_NO_MERGE = 20,    /* of fkv_merge alone, of functions that do not merge */
    FKV_IS_CLOSED = 32,   /* the handle is closed */
    FKV_IN_USE = 33,      /* the handle that was to be opened is open */
    FKV_NOT_A_STORE = 34, /* the handle is a cursor's */
    FKV_NOT_A_CURSOR = 35, /* the handle is a store's */
    FKV_BAD_KEY = 36,     /* the name has no byte, or more than 31 */
    FKV_BAD_KIND = 37,    /* there is no such kind of store */
    FKV_NULL = 38,        /* a pointer is null */
    FKV_SAME = 39,        /* the store and the cursor are one handle */
    FKV_OUT_OF_RANGE = 40, /* of fkv_upsert alone: the value that was to be set has more bits than the store's values, or is below 0 and a count */
    FKV_NOT_NUMBERS = 41, /* the store or the cursor is of cells: fkv_put, fkv_get, fkv_remove and fkv_next_cell are for it */
    FKV_NOT_CELLS = 42    /* it is of numbers */
};

/* Kinds of stores: what they make of the inputs of a name. */
enum {
    FKV_SUM = 1,        /* adds them up, modulo 2^128 */
    FKV_MAX = 2,        /* keeps the greatest; values have 64 bits */
    FKV_CAPPED_SUM = 3, /* adds them up, and declines an input by which the sum would be below 0 or above 1,000,000; it does not merge */
    FKV_COUNT = 4,      /* counts them, modulo 2^64; what they are plays no part */
    FKV_CELLS = 5       /* no numbers: a cell of 64 bytes for each name, and no inputs */
};

/* Kinds of answers. */
enum { FKV_VALUE = 0, FKV_ABSENT = 1, FKV_STORED = 2, FKV_DELETED = 3, FKV_DECLINED = 4 };

/* A handle of a store or of a cursor. What it has is the library's. */
typedef struct fkv_handle {
    void *at;
} fkv_handle;

#define FKV_CLOSED {0}

/* A whole number of 128 bits, two's complement: high * 2^64 + low. */
typedef struct fkv_number {
    uint64_t low;
    int64_t high;
} fkv_number;

/* What an operation answers. */
typedef struct fkv_answer {
    uint64_t kind;
    fkv_number value; /* 0 where the kind is not FKV_VALUE */
} fkv_answer;

/* A name and its value. */
typedef struct fkv_pair {
    uint64_t is_some; /* 1, or 0 where there is no pair left */
    uint64_t length;  /* of the name */
    char name[32];    /* its bytes, and zeros behind them: at least one */
    fkv_number value;
} fkv_pair;

/* 64 bytes of any kind. */
typedef struct fkv_cell {
    unsigned char bytes[64];
} fkv_cell;

/* What a read of a cell answers. */
typedef struct fkv_cell_answer {
    uint64_t kind; /* FKV_VALUE or FKV_ABSENT */
    fkv_cell cell; /* zeros where the kind is not FKV_VALUE */
} fkv_cell_answer;

/* A name and its cell. */
typedef struct fkv_cell_pair {
    uint64_t is_some; /* 1, or 0 where there is no pair left */
    uint64_t length;  /* of the name */
    char name[32];    /* its bytes, and zeros behind them: at least one */
    fkv_cell cell;
} fkv_cell_pair;

/* The size of a store. */
typedef struct fkv_settings {
    uint64_t id;             /* the store's own number, any */
    uint64_t partition_bits; /* there are 2 to this many partitions: 0 to 6 */
    uint64_t bucket_bits;    /* there are 2 to this many buckets in a partition's index: 0 to 20 */
    uint64_t page_bits;      /* a page has 2 to this many bytes: 8 to 20 */
    uint64_t frames;         /* the page frames of a partition: 2 to 1,024 */
    uint64_t turns;          /* 1 to 1,000,000,000; a store for one thread makes no use of it */
} fkv_settings;

/* Some, for a store of up to a million names. */
#define FKV_SETTINGS {1, 0, 16, 16, 256, 1000000}

/* How much a store holds. */
typedef struct fkv_sizes {
    uint64_t bytes;   /* of the logs */
    uint64_t evicted; /* those of them whose pages left the frames, or are about to */
    uint64_t moments; /* events, and what moved pages */
} fkv_sizes;

/* What the library defines: the calls below without the tests for null and for two handles that are one. No pointer may be null, but for
 * what a handle has. */
uint32_t fkv_c_open(fkv_handle *store, uint32_t kind, const fkv_settings *settings);
uint32_t fkv_c_rmw(fkv_handle *store, const void *name, size_t length, int64_t input, fkv_answer *answer);
uint32_t fkv_c_read(fkv_handle *store, const void *name, size_t length, fkv_answer *answer);
uint32_t fkv_c_upsert(fkv_handle *store, const void *name, size_t length, const fkv_number *value, fkv_answer *answer);
uint32_t fkv_c_delete(fkv_handle *store, const void *name, size_t length, fkv_answer *answer);
uint32_t fkv_c_merge(fkv_handle *store, const void *name, size_t length, int64_t input, fkv_answer *answer);
uint32_t fkv_c_compact(fkv_handle *store, uint32_t *has_cut);
uint32_t fkv_c_counts(fkv_handle *store, fkv_sizes *sizes);
uint32_t fkv_c_list(fkv_handle *store, fkv_handle *cursor);
uint32_t fkv_c_next(fkv_handle *cursor, fkv_pair *pair);
uint32_t fkv_c_put(fkv_handle *store, const void *name, size_t length, const fkv_cell *cell);
uint32_t fkv_c_get(fkv_handle *store, const void *name, size_t length, fkv_cell_answer *answer);
uint32_t fkv_c_remove(fkv_handle *store, const void *name, size_t length);
uint32_t fkv_c_next_cell(fkv_handle *cursor, fkv_cell_pair *pair);
uint32_t fkv_c_close(fkv_handle *handle);
void fkv_c_name(uint32_t status, char *text, size_t room);

/* Opens a closed handle, as an empty store of this kind: FKV_IN_USE where it is open, else FKV_BAD_KIND, else FKV_BAD_CONFIG, and where
 * all that is well FKV_DONE or FKV_NO_MEMORY. */
static inline uint32_t fkv_open(fkv_handle *store, uint32_t kind, const fkv_settings *settings) {
    return store && settings ? fkv_c_open(store, kind, settings) : (uint32_t)FKV_NULL;
}

/* The five calls that follow are for stores of numbers. Of one, and a name of 1 to 31 bytes, their status is FKV_DONE,
 * FKV_OUT_OF_RANGE, FKV_NO_MERGE, FKV_NO_MEMORY or FKV_WORN.
 *
 * Changes the value of a name by an input, or gives it its first, and answers the new value, or FKV_DECLINED where it is as it was. */
static inline uint32_t fkv_rmw(fkv_handle *store, const void *name, size_t length, int64_t input, fkv_answer *answer) {
    return store && name && answer ? fkv_c_rmw(store, name, length, input, answer) : (uint32_t)FKV_NULL;
}

/* Answers the value of a name, or FKV_ABSENT. */
static inline uint32_t fkv_read(fkv_handle *store, const void *name, size_t length, fkv_answer *answer) {
    return store && name && answer ? fkv_c_read(store, name, length, answer) : (uint32_t)FKV_NULL;
}

/* Sets the value of a name, whatever it was, and answers FKV_STORED. */
static inline uint32_t fkv_upsert(fkv_handle *store, const void *name, size_t length, fkv_number value, fkv_answer *answer) {
    return store && name && answer ? fkv_c_upsert(store, name, length, &value, answer) : (uint32_t)FKV_NULL;
}

/* Removes a name, whether it has a value or not, and answers FKV_DELETED. */
static inline uint32_t fkv_delete(fkv_handle *store, const void *name, size_t length, fkv_answer *answer) {
    return store && name && answer ? fkv_c_delete(store, name, length, answer) : (uint32_t)FKV_NULL;
}

/* Changes the value as fkv_rmw does, answers FKV_STORED and no value, and reads no page. */
static inline uint32_t fkv_merge(fkv_handle *store, const void *name, size_t length, int64_t input, fkv_answer *answer) {
    return store && name && answer ? fkv_c_merge(store, name, length, input, answer) : (uint32_t)FKV_NULL;
}

/* Gives back what superseded records take in the pages that left the frames before the call: of those pages none is kept, and the
 * records in them that live are written again. Tells 1 where any was given back, else 0. It is done by itself too, as far as it pays: a
 * store that is updated for ever takes its frames and buckets and, beside them, some four records for each name that has a value, and 64
 * pages. No value changes, whatever the status; where it is not FKV_DONE, a part may be given back. */
static inline uint32_t fkv_compact(fkv_handle *store, uint32_t *has_cut) {
    return store && has_cut ? fkv_c_compact(store, has_cut) : (uint32_t)FKV_NULL;
}

/* Tells how much the store holds. No store refuses it. */
static inline uint32_t fkv_counts(fkv_handle *store, fkv_sizes *sizes) {
    return store && sizes ? fkv_c_counts(store, sizes) : (uint32_t)FKV_NULL;
}

/* Opens a closed handle, as a cursor over the pairs that the store has now, names rising as strings of bytes. The pairs are copied: what
 * the store does then, the cursor does not see, and it may outlive the store. */
static inline uint32_t fkv_list(fkv_handle *store, fkv_handle *cursor) {
    return !store || !cursor ? (uint32_t)FKV_NULL : store == cursor ? (uint32_t)FKV_SAME : fkv_c_list(store, cursor);
}

/* Tells the next pair of a cursor over numbers, or that there is none left. */
static inline uint32_t fkv_next(fkv_handle *cursor, fkv_pair *pair) {
    return cursor && pair ? fkv_c_next(cursor, pair) : (uint32_t)FKV_NULL;
}

/* Writes the cell of a name, whatever it was. */
static inline uint32_t fkv_put(fkv_handle *store, const void *name, size_t length, const fkv_cell *cell) {
    return store && name && cell ? fkv_c_put(store, name, length, cell) : (uint32_t)FKV_NULL;
}

/* Answers the cell of a name, or FKV_ABSENT. */
static inline uint32_t fkv_get(fkv_handle *store, const void *name, size_t length, fkv_cell_answer *answer) {
    return store && name && answer ? fkv_c_get(store, name, length, answer) : (uint32_t)FKV_NULL;
}

/* Removes a name, whether it has a cell or not. */
static inline uint32_t fkv_remove(fkv_handle *store, const void *name, size_t length) {
    return store && name ? fkv_c_remove(store, name, length) : (uint32_t)FKV_NULL;
}

/* Tells the next pair of a cursor over cells, or that there is none left. */
static inline uint32_t fkv_next_cell(fkv_handle *cursor, fkv_cell_pair *pair) {
    return cursor && pair ? fkv_c_next_cell(cursor, pair) : (uint32_t)FKV_NULL;
}

/* Closes an open handle, of a store or of a cursor, and frees what it had. A closed one answers FKV_IS_CLOSED. */
static inline uint32_t fkv_close(fkv_handle *handle) {
    return handle ? fkv_c_close(handle) : (uint32_t)FKV_NULL;
}

/* Writes the name of a status, such as NoMemory, and zeros behind it; it needs at most 11 bytes and one for a zero. */
static inline void fkv_name(uint32_t status, char *text, size_t room) {
    if (text) fkv_c_name(status, text, room);
}

#ifdef __cplusplus
}
#endif

#endif
