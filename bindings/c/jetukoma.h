/* Two-way maps whose calls are proved. A left has one right, and a right has one left.
 *
 *     jetukoma_u64_u64 seats = {0};
 *     uint64_t guest;
 *     if (jetukoma_u64_u64_new(&seats, JETUKOMA_ORDERED, 0) == JETUKOMA_DONE) {
 *         jetukoma_u64_u64_insert_no_overwrite(&seats, 7, 3); // JETUKOMA_DONE, or JETUKOMA_NO_MEMORY
 *         jetukoma_u64_u64_get_by_right(&seats, 3, &guest);   // JETUKOMA_DONE, and guest is 7
 *         jetukoma_u64_u64_free(&seats);
 *     }
 *
 * The names say what the two sides are: numbers (u64) or byte strings (bytes). `.._new` takes the kind of the table:
 *
 *     JETUKOMA_ORDERED           has its pairs in ascending order of their lefts
 *     JETUKOMA_HASHED            has its pairs in no particular order
 *     JETUKOMA_INSERTION_ORDER   has its pairs in the order in which they were inserted
 *
 * In insertion order, a pair that overwrites the pair of the same left keeps that pair's position. Any other new pair goes to the
 * end.
 *
 * A few calls need an order. `.._fill_from`, `.._fill_by_right`, `.._pair_at_rank`, `.._left_rank` and `.._right_rank` need an
 * ordered table. `.._fill_back`, `.._pop_first` and `.._pop_last` need an ordered table or one in insertion order. `.._to_front`
 * and `.._to_back` need a table in insertion order. On a table of another kind they return JETUKOMA_NO_ORDER. All other calls work
 * on every kind.
 *
 * The last argument of `.._new` is a seed. The hashes of a table depend on it. Do strangers choose the values of a table that is
 * hashed or in insertion order? Then pass a random seed and keep it secret. Whoever knows the seed can choose many values with
 * equal hashes, and a search among them is slow. Otherwise the seed may be 0. An ordered table does not use its seed.
 *
 * The caller owns the handle. A handle `{0}` has no table. In C++, write `{}`. `.._new` makes a table, and `.._free` frees it.
 * After that the handle has no table. You may move a handle with a table. You must not copy it or use its fields. You may use a
 * handle from any thread, but from one thread at a time. The memory of a table comes from `malloc`, and `.._free` returns it. The
 * caller owns what a call writes.
 *
 * Each call on a handle returns one of the statuses below. A call accepts all values, and it tests for null pointers. It writes
 * its out-parameters on JETUKOMA_DONE alone, unless its text says otherwise. The things that you pass to one call must not
 * overlap, but a call with two handles accepts one handle twice. A pointer that comes with a number must point to this number of
 * values. Do not make a call from a signal handler.
 *
 * Pass bytes as a pointer, which is not null, and their number. An insertion copies them. Byte strings are compared byte by byte,
 * so texts in UTF-8 are in the order of their code points. A call writes bytes to the front of a buffer, and their number. If the
 * buffer is too short, the call writes the number alone and returns JETUKOMA_BUFFER_TOO_SHORT.
 *
 * A search takes logarithmic time in an ordered table, and expected constant time in a table of another kind. A look-up makes one
 * search. An insertion and a removal make one on each side. `.._new`, `.._clone`, `.._reserve`, `.._shrink_to`, insertions and the
 * JSON calls allocate. No other call does.
 *
 * To read all pairs of a table, iterate row by row. A position is a number of pairs that the call leaves out, and stays right
 * until the table changes. No status says that the table has changed since. After a change, begin again at position 0. In an
 * ordered table you can also go on behind the last left that you read. The position of the next pair is the `.._left_rank` of this
 * left, plus one if the table still contains the left.
 *
 * A row of a table with byte strings has their lengths, and their bytes are in a buffer:
 *
 *     jetukoma_bytes_u64_row row[64];
 *     uint8_t bytes[4096];
 *     for (size_t at = 0, len, count; !jetukoma_bytes_u64_fill(&ages, at, bytes, 4096, row, 64, &len, &count) && count; at += count)
 *         for (size_t i = 0, from = 0; i < count; from += row[i++].left_len) show(bytes + from, row[i].left_len, row[i].right);
 *
 * If the next pair has more than 4096 bytes, this call returns JETUKOMA_BUFFER_TOO_SHORT. `len` is then the number of its bytes.
 *
 * In an ordered table, the lefts from a to below b have the positions from the `.._left_rank` of a to below that of b. Read these
 * rows by `.._fill`, from the first row on or from the last row back. `.._right_rank` and `.._fill_by_right` do the same for rights.
 *
 * To remove all pairs that a test refuses, iterate row by row. Remove the refused pairs of a row before you read the next row:
 *
 *     jetukoma_u64_u64_pair row[64];
 *     for (size_t at = 0, count; !jetukoma_u64_u64_fill(&seats, at, row, 64, &count) && count;) {
 *         for (size_t i = 0; i < count; i++)
 *             if (keeps(row[i])) at++;
 *             else jetukoma_u64_u64_remove_by_left(&seats, row[i].left, &row[i]);
 *     }
 *
 * This works on an ordered table and on one in insertion order. A removal may change the order of a hashed table, so read all of
 * its pairs before you remove one.
 *
 * tools/exports makes this file from crates/bimap_c. The functions are inline. If you define JETUKOMA_API as nothing before the
 * include, they are ordinary functions.
 */
#ifndef JETUKOMA_H
#define JETUKOMA_H
#include <stdbool.h>
#include <stddef.h>
#include <stdint.h>
#ifdef __cplusplus
extern "C" {
#endif
#ifndef JETUKOMA_API
#define JETUKOMA_API static inline
#endif

/* The version of this header. */
#define JETUKOMA_VERSION "0.1.0"

/* Returns the version of the library that the program runs with. It may differ from the version of the header that the
 * program was compiled with. */
const char *jetukoma_version(void);

enum {
    /* Both sides are ordered. A search takes logarithmic time. */
    JETUKOMA_ORDERED = 0,
    /* Both sides are hashed. A search takes expected constant time. */
    JETUKOMA_HASHED = 1,
    /* Both sides are hashed, and the table keeps the insertion order. A search takes expected constant time. */
    JETUKOMA_INSERTION_ORDER = 2,
};

enum {
    /* The call did what its description says. */
    JETUKOMA_DONE = 0,
    /* Out of memory. Nothing has changed. A call with many items keeps the items before the one that ran out of
     * memory. */
    JETUKOMA_NO_MEMORY = 1,
    /* A handle is null or has no table of these sides. `free` returns this if the handle has no table. `new` and
     * `clone` return it if the handle for the new table has a table already. Nothing has changed. */
    JETUKOMA_NO_TABLE = 2,
    /* The call was refused, and nothing has changed. A value is contained and must not be overwritten, a flag is
     * above 1, there is no such kind, or a pointer to a value is null. Rows name more bytes than there are. For
     * JSON: the table cannot be written as JSON, or the text is no table. */
    JETUKOMA_REFUSED = 3,
    /* The buffer is too short. The call has written the length that it needs. Nothing else has changed. */
    JETUKOMA_BUFFER_TOO_SHORT = 4,
    /* No such pair is contained. Nothing has changed. */
    JETUKOMA_NOT_FOUND = 5,
    /* A table of this kind has no order that the call could use. Nothing has changed. */
    JETUKOMA_NO_ORDER = 6,
};

/* A left and its right. */
typedef struct {
    uint64_t left;
    uint64_t right;
} jetukoma_u64_u64_pair;

/* The pairs that an insertion overwrote. `kind` is 0 if there are none. It is 1 for the pair of the left alone, 2
 * for the pair of the right alone, and 3 for one pair with both values. In these cases the pair is `first`. `kind`
 * is 4 for two pairs: `first` is the pair of the left, and `second` is the pair of the right. A pair that does not
 * exist is two zeros. */
typedef struct {
    uint32_t kind;
    jetukoma_u64_u64_pair first;
    jetukoma_u64_u64_pair second;
} jetukoma_u64_u64_overwritten;

/* A table with numbers on both sides. */
typedef struct {
    void *at;
    bool live;
} jetukoma_u64_u64;

/* Makes an empty table of capacity 0 for a handle that has no table. The kind is one of the numbers above. The
 * hashes of both sides depend on the seed. An ordered table does not use the seed. The call takes constant time.
 * Returns 1 if there is no memory, 2 if the handle has a table, and 3 if there is no such kind. */
uint32_t jetukoma_u64_u64_new_unchecked(jetukoma_u64_u64 *handle, uint32_t kind, uint64_t seed);
JETUKOMA_API uint32_t jetukoma_u64_u64_new(jetukoma_u64_u64 *handle, uint32_t kind, uint64_t seed) {
    if (!handle) return JETUKOMA_NO_TABLE;
    return jetukoma_u64_u64_new_unchecked(handle, kind, seed);
}

/* Frees the table. The handle has no table then. The time grows with the capacity. Returns 2 if the handle has no
 * table. */
uint32_t jetukoma_u64_u64_free_unchecked(jetukoma_u64_u64 *handle);
JETUKOMA_API uint32_t jetukoma_u64_u64_free(jetukoma_u64_u64 *handle) {
    if (!handle) return JETUKOMA_NO_TABLE;
    return jetukoma_u64_u64_free_unchecked(handle);
}

/* Writes the number of pairs. It takes constant time. */
uint32_t jetukoma_u64_u64_len_unchecked(jetukoma_u64_u64 *handle, size_t *len);
JETUKOMA_API uint32_t jetukoma_u64_u64_len(jetukoma_u64_u64 *handle, size_t *len) {
    if (!handle) return JETUKOMA_NO_TABLE;
    if (!len) return JETUKOMA_REFUSED;
    return jetukoma_u64_u64_len_unchecked(handle, len);
}

/* Writes the capacity, which is the number of pairs for which there is memory. It takes constant time. */
uint32_t jetukoma_u64_u64_capacity_unchecked(jetukoma_u64_u64 *handle, size_t *capacity);
JETUKOMA_API uint32_t jetukoma_u64_u64_capacity(jetukoma_u64_u64 *handle, size_t *capacity) {
    if (!handle) return JETUKOMA_NO_TABLE;
    if (!capacity) return JETUKOMA_REFUSED;
    return jetukoma_u64_u64_capacity_unchecked(handle, capacity);
}

/* Makes the capacity at least the number of pairs plus `more`. It makes it no greater than needed. None of the next
 * `more` insertions can then run out of memory. Returns 1 if there is no memory. */
uint32_t jetukoma_u64_u64_reserve_unchecked(jetukoma_u64_u64 *handle, size_t more);
JETUKOMA_API uint32_t jetukoma_u64_u64_reserve(jetukoma_u64_u64 *handle, size_t more) {
    if (!handle) return JETUKOMA_NO_TABLE;
    return jetukoma_u64_u64_reserve_unchecked(handle, more);
}

/* Lowers a capacity above `least` to `least`, or to the number of pairs if that is more. It frees the memory that
 * this spares. The time grows with the capacity. Returns 1 if there is no memory for the smaller table. */
uint32_t jetukoma_u64_u64_shrink_to_unchecked(jetukoma_u64_u64 *handle, size_t least);
JETUKOMA_API uint32_t jetukoma_u64_u64_shrink_to(jetukoma_u64_u64 *handle, size_t least) {
    if (!handle) return JETUKOMA_NO_TABLE;
    return jetukoma_u64_u64_shrink_to_unchecked(handle, least);
}

/* Inserts a pair, and writes the pairs that it overwrote. It allocates only if it overwrites none and there is no
 * spare capacity. Returns 1 if there is no memory. */
uint32_t jetukoma_u64_u64_insert_unchecked(jetukoma_u64_u64 *handle, uint64_t left, uint64_t right, jetukoma_u64_u64_overwritten *overwritten);
JETUKOMA_API uint32_t jetukoma_u64_u64_insert(jetukoma_u64_u64 *handle, uint64_t left, uint64_t right, jetukoma_u64_u64_overwritten *overwritten) {
    if (!handle) return JETUKOMA_NO_TABLE;
    if (!overwritten) return JETUKOMA_REFUSED;
    return jetukoma_u64_u64_insert_unchecked(handle, left, right, overwritten);
}

/* Inserts a pair if neither value is contained. Returns 1 if there is no memory, and 3 if a value is contained. */
uint32_t jetukoma_u64_u64_insert_no_overwrite_unchecked(jetukoma_u64_u64 *handle, uint64_t left, uint64_t right);
JETUKOMA_API uint32_t jetukoma_u64_u64_insert_no_overwrite(jetukoma_u64_u64 *handle, uint64_t left, uint64_t right) {
    if (!handle) return JETUKOMA_NO_TABLE;
    return jetukoma_u64_u64_insert_no_overwrite_unchecked(handle, left, right);
}

/* Inserts as `insert` does, under a policy of two flags. If the flag of a side is 1, a contained value of this side
 * refuses the insertion. If it is 0, the value is overwritten. Returns 1 if there is no memory. Returns 3 if the
 * insertion is refused or a flag is above 1. */
uint32_t jetukoma_u64_u64_insert_with_unchecked(jetukoma_u64_u64 *handle, uint64_t left, uint64_t right, uint8_t left_refuses, uint8_t right_refuses, jetukoma_u64_u64_overwritten *overwritten);
JETUKOMA_API uint32_t jetukoma_u64_u64_insert_with(jetukoma_u64_u64 *handle, uint64_t left, uint64_t right, uint8_t left_refuses, uint8_t right_refuses, jetukoma_u64_u64_overwritten *overwritten) {
    if (!handle) return JETUKOMA_NO_TABLE;
    if (!overwritten) return JETUKOMA_REFUSED;
    return jetukoma_u64_u64_insert_with_unchecked(handle, left, right, left_refuses, right_refuses, overwritten);
}

/* Inserts pairs in order, each as `insert` does, and writes to `taken` how many were inserted. Returns 1 if there is
 * no memory for the next pair. The pairs before it stay, and `taken` is written then too. */
uint32_t jetukoma_u64_u64_insert_many_unchecked(jetukoma_u64_u64 *handle, const jetukoma_u64_u64_pair *pairs, size_t pairs_len, size_t *taken);
JETUKOMA_API uint32_t jetukoma_u64_u64_insert_many(jetukoma_u64_u64 *handle, const jetukoma_u64_u64_pair *pairs, size_t pairs_len, size_t *taken) {
    if (!handle) return JETUKOMA_NO_TABLE;
    if (!pairs || pairs_len > PTRDIFF_MAX / sizeof *pairs || !taken) return JETUKOMA_REFUSED;
    return jetukoma_u64_u64_insert_many_unchecked(handle, pairs, pairs_len, taken);
}

/* Writes the right of a left. Returns 5 if the left is not contained. */
uint32_t jetukoma_u64_u64_get_by_left_unchecked(jetukoma_u64_u64 *handle, uint64_t left, uint64_t *right);
JETUKOMA_API uint32_t jetukoma_u64_u64_get_by_left(jetukoma_u64_u64 *handle, uint64_t left, uint64_t *right) {
    if (!handle) return JETUKOMA_NO_TABLE;
    if (!right) return JETUKOMA_REFUSED;
    return jetukoma_u64_u64_get_by_left_unchecked(handle, left, right);
}

/* Writes the left of a right. Returns 5 if the right is not contained. */
uint32_t jetukoma_u64_u64_get_by_right_unchecked(jetukoma_u64_u64 *handle, uint64_t right, uint64_t *left);
JETUKOMA_API uint32_t jetukoma_u64_u64_get_by_right(jetukoma_u64_u64 *handle, uint64_t right, uint64_t *left) {
    if (!handle) return JETUKOMA_NO_TABLE;
    if (!left) return JETUKOMA_REFUSED;
    return jetukoma_u64_u64_get_by_right_unchecked(handle, right, left);
}

/* Returns 0 if the left is contained, and 5 if it is not. */
uint32_t jetukoma_u64_u64_contains_left_unchecked(jetukoma_u64_u64 *handle, uint64_t left);
JETUKOMA_API uint32_t jetukoma_u64_u64_contains_left(jetukoma_u64_u64 *handle, uint64_t left) {
    if (!handle) return JETUKOMA_NO_TABLE;
    return jetukoma_u64_u64_contains_left_unchecked(handle, left);
}

/* Returns 0 if the right is contained, and 5 if it is not. */
uint32_t jetukoma_u64_u64_contains_right_unchecked(jetukoma_u64_u64 *handle, uint64_t right);
JETUKOMA_API uint32_t jetukoma_u64_u64_contains_right(jetukoma_u64_u64 *handle, uint64_t right) {
    if (!handle) return JETUKOMA_NO_TABLE;
    return jetukoma_u64_u64_contains_right_unchecked(handle, right);
}

/* Removes the pair of a left, and writes it. Returns 5 if the left is not contained. */
uint32_t jetukoma_u64_u64_remove_by_left_unchecked(jetukoma_u64_u64 *handle, uint64_t left, jetukoma_u64_u64_pair *pair);
JETUKOMA_API uint32_t jetukoma_u64_u64_remove_by_left(jetukoma_u64_u64 *handle, uint64_t left, jetukoma_u64_u64_pair *pair) {
    if (!handle) return JETUKOMA_NO_TABLE;
    if (!pair) return JETUKOMA_REFUSED;
    return jetukoma_u64_u64_remove_by_left_unchecked(handle, left, pair);
}

/* Removes the pair of a right, and writes it. Returns 5 if the right is not contained. */
uint32_t jetukoma_u64_u64_remove_by_right_unchecked(jetukoma_u64_u64 *handle, uint64_t right, jetukoma_u64_u64_pair *pair);
JETUKOMA_API uint32_t jetukoma_u64_u64_remove_by_right(jetukoma_u64_u64 *handle, uint64_t right, jetukoma_u64_u64_pair *pair) {
    if (!handle) return JETUKOMA_NO_TABLE;
    if (!pair) return JETUKOMA_REFUSED;
    return jetukoma_u64_u64_remove_by_right_unchecked(handle, right, pair);
}

/* Removes all pairs. The capacity does not change. The time grows with the capacity. */
uint32_t jetukoma_u64_u64_clear_unchecked(jetukoma_u64_u64 *handle);
JETUKOMA_API uint32_t jetukoma_u64_u64_clear(jetukoma_u64_u64 *handle) {
    if (!handle) return JETUKOMA_NO_TABLE;
    return jetukoma_u64_u64_clear_unchecked(handle);
}

/* Makes a clone of the table for a handle `copy` that has no table. The clone has the kind, the seed, the capacity
 * and the pairs of the table, in the same order. The time grows with the capacity. Returns 1 if there is no memory.
 * Returns 2 also if `copy` has a table. */
uint32_t jetukoma_u64_u64_clone_unchecked(jetukoma_u64_u64 *handle, jetukoma_u64_u64 *copy);
JETUKOMA_API uint32_t jetukoma_u64_u64_clone(jetukoma_u64_u64 *handle, jetukoma_u64_u64 *copy) {
    if (!handle || !copy) return JETUKOMA_NO_TABLE;
    if (handle == copy) return JETUKOMA_NO_TABLE;
    return jetukoma_u64_u64_clone_unchecked(handle, copy);
}

/* Returns 0 if both tables have the same pairs, and 5 if they do not. The tables may be of two kinds, and their
 * orders do not matter. It takes a look-up by left in the other table for each pair. */
uint32_t jetukoma_u64_u64_equals_unchecked(jetukoma_u64_u64 *handle, jetukoma_u64_u64 *other);
JETUKOMA_API uint32_t jetukoma_u64_u64_equals(jetukoma_u64_u64 *handle, jetukoma_u64_u64 *other) {
    if (!handle || !other) return JETUKOMA_NO_TABLE;
    size_t len;
    if (handle == other) return jetukoma_u64_u64_len_unchecked(handle, &len);
    return jetukoma_u64_u64_equals_unchecked(handle, other);
}

/* Returns 0 if the other table contains each pair of the table, and 5 if it does not. The tables may be of two
 * kinds. It takes a look-up by left in the other table for each pair. */
uint32_t jetukoma_u64_u64_is_subset_unchecked(jetukoma_u64_u64 *handle, jetukoma_u64_u64 *other);
JETUKOMA_API uint32_t jetukoma_u64_u64_is_subset(jetukoma_u64_u64 *handle, jetukoma_u64_u64 *other) {
    if (!handle || !other) return JETUKOMA_NO_TABLE;
    size_t len;
    if (handle == other) return jetukoma_u64_u64_len_unchecked(handle, &len);
    return jetukoma_u64_u64_is_subset_unchecked(handle, other);
}

/* Writes pairs to the front of a row, until the row is full or there are no more. It leaves out the first `start`
 * pairs, and writes to `filled` how many pairs it wrote. An ordered table has its pairs in ascending order of their
 * lefts, and a table in insertion order in that order. The order of a hashed table is not specified, and it stays
 * the same until the table changes. An ordered table takes one search, and at most one descent in the tree for each
 * pair. A table of another kind passes over the pairs that it leaves out. To read all its pairs, use one long row or
 * a few. */
uint32_t jetukoma_u64_u64_fill_unchecked(jetukoma_u64_u64 *handle, size_t start, jetukoma_u64_u64_pair *row, size_t row_len, size_t *filled);
JETUKOMA_API uint32_t jetukoma_u64_u64_fill(jetukoma_u64_u64 *handle, size_t start, jetukoma_u64_u64_pair *row, size_t row_len, size_t *filled) {
    if (!handle) return JETUKOMA_NO_TABLE;
    if (!row || row_len > PTRDIFF_MAX / sizeof *row || !filled) return JETUKOMA_REFUSED;
    return jetukoma_u64_u64_fill_unchecked(handle, start, row, row_len, filled);
}

/* Writes pairs as `fill` does, but in the reverse order. It leaves out the last `start` pairs, which it passes over.
 * Returns 6 if the table is hashed. */
uint32_t jetukoma_u64_u64_fill_back_unchecked(jetukoma_u64_u64 *handle, size_t start, jetukoma_u64_u64_pair *row, size_t row_len, size_t *filled);
JETUKOMA_API uint32_t jetukoma_u64_u64_fill_back(jetukoma_u64_u64 *handle, size_t start, jetukoma_u64_u64_pair *row, size_t row_len, size_t *filled) {
    if (!handle) return JETUKOMA_NO_TABLE;
    if (!row || row_len > PTRDIFF_MAX / sizeof *row || !filled) return JETUKOMA_REFUSED;
    return jetukoma_u64_u64_fill_back_unchecked(handle, start, row, row_len, filled);
}

/* Writes the pairs whose left is at least `from`, as `fill` does. Returns 6 if the table is not ordered. */
uint32_t jetukoma_u64_u64_fill_from_unchecked(jetukoma_u64_u64 *handle, uint64_t from, jetukoma_u64_u64_pair *row, size_t row_len, size_t *filled);
JETUKOMA_API uint32_t jetukoma_u64_u64_fill_from(jetukoma_u64_u64 *handle, uint64_t from, jetukoma_u64_u64_pair *row, size_t row_len, size_t *filled) {
    if (!handle) return JETUKOMA_NO_TABLE;
    if (!row || row_len > PTRDIFF_MAX / sizeof *row || !filled) return JETUKOMA_REFUSED;
    return jetukoma_u64_u64_fill_from_unchecked(handle, from, row, row_len, filled);
}

/* Writes how many lefts are less than this one, which need not be contained. Returns 6 if the table is not ordered. */
uint32_t jetukoma_u64_u64_left_rank_unchecked(jetukoma_u64_u64 *handle, uint64_t left, size_t *rank);
JETUKOMA_API uint32_t jetukoma_u64_u64_left_rank(jetukoma_u64_u64 *handle, uint64_t left, size_t *rank) {
    if (!handle) return JETUKOMA_NO_TABLE;
    if (!rank) return JETUKOMA_REFUSED;
    return jetukoma_u64_u64_left_rank_unchecked(handle, left, rank);
}

/* Writes how many rights are less than this one, which need not be contained. Returns 6 if the table is not ordered. */
uint32_t jetukoma_u64_u64_right_rank_unchecked(jetukoma_u64_u64 *handle, uint64_t right, size_t *rank);
JETUKOMA_API uint32_t jetukoma_u64_u64_right_rank(jetukoma_u64_u64 *handle, uint64_t right, size_t *rank) {
    if (!handle) return JETUKOMA_NO_TABLE;
    if (!rank) return JETUKOMA_REFUSED;
    return jetukoma_u64_u64_right_rank_unchecked(handle, right, rank);
}

/* Writes pairs as `fill` does, but in ascending order of their rights. It takes one search, and at most one descent
 * in the tree for each pair. Returns 6 if the table is not ordered. */
uint32_t jetukoma_u64_u64_fill_by_right_unchecked(jetukoma_u64_u64 *handle, size_t start, jetukoma_u64_u64_pair *row, size_t row_len, size_t *filled);
JETUKOMA_API uint32_t jetukoma_u64_u64_fill_by_right(jetukoma_u64_u64 *handle, size_t start, jetukoma_u64_u64_pair *row, size_t row_len, size_t *filled) {
    if (!handle) return JETUKOMA_NO_TABLE;
    if (!row || row_len > PTRDIFF_MAX / sizeof *row || !filled) return JETUKOMA_REFUSED;
    return jetukoma_u64_u64_fill_by_right_unchecked(handle, start, row, row_len, filled);
}

/* Removes a pair, and writes it. In an ordered table it is the pair of the least left. In a table in insertion order
 * it is the first pair. Returns 5 if there are no pairs, and 6 if the table is hashed. */
uint32_t jetukoma_u64_u64_pop_first_unchecked(jetukoma_u64_u64 *handle, jetukoma_u64_u64_pair *pair);
JETUKOMA_API uint32_t jetukoma_u64_u64_pop_first(jetukoma_u64_u64 *handle, jetukoma_u64_u64_pair *pair) {
    if (!handle) return JETUKOMA_NO_TABLE;
    if (!pair) return JETUKOMA_REFUSED;
    return jetukoma_u64_u64_pop_first_unchecked(handle, pair);
}

/* Removes a pair, and writes it. In an ordered table it is the pair of the greatest left. In a table in insertion
 * order it is the last pair. Returns 5 if there are no pairs, and 6 if the table is hashed. */
uint32_t jetukoma_u64_u64_pop_last_unchecked(jetukoma_u64_u64 *handle, jetukoma_u64_u64_pair *pair);
JETUKOMA_API uint32_t jetukoma_u64_u64_pop_last(jetukoma_u64_u64 *handle, jetukoma_u64_u64_pair *pair) {
    if (!handle) return JETUKOMA_NO_TABLE;
    if (!pair) return JETUKOMA_REFUSED;
    return jetukoma_u64_u64_pop_last_unchecked(handle, pair);
}

/* Moves the pair of a left to the front of the insertion order. The other pairs keep their order. Returns 5 if the
 * left is not contained, and 6 if the table is not in insertion order. */
uint32_t jetukoma_u64_u64_to_front_unchecked(jetukoma_u64_u64 *handle, uint64_t left);
JETUKOMA_API uint32_t jetukoma_u64_u64_to_front(jetukoma_u64_u64 *handle, uint64_t left) {
    if (!handle) return JETUKOMA_NO_TABLE;
    return jetukoma_u64_u64_to_front_unchecked(handle, left);
}

/* Moves the pair of a left to the end of the insertion order. The other pairs keep their order. Returns 5 if the
 * left is not contained, and 6 if the table is not in insertion order. */
uint32_t jetukoma_u64_u64_to_back_unchecked(jetukoma_u64_u64 *handle, uint64_t left);
JETUKOMA_API uint32_t jetukoma_u64_u64_to_back(jetukoma_u64_u64 *handle, uint64_t left) {
    if (!handle) return JETUKOMA_NO_TABLE;
    return jetukoma_u64_u64_to_back_unchecked(handle, left);
}

/* A pair: the number of bytes of its left, and its right. */
typedef struct {
    size_t left_len;
    uint64_t right;
} jetukoma_bytes_u64_row;

/* A table with byte strings on the left and numbers on the right. */
typedef struct {
    void *at;
    bool live;
} jetukoma_bytes_u64;

/* Makes an empty table of capacity 0 for a handle that has no table. The kind is one of the numbers above. The
 * hashes of both sides depend on the seed. An ordered table does not use the seed. The call takes constant time.
 * Returns 1 if there is no memory, 2 if the handle has a table, and 3 if there is no such kind. */
uint32_t jetukoma_bytes_u64_new_unchecked(jetukoma_bytes_u64 *handle, uint32_t kind, uint64_t seed);
JETUKOMA_API uint32_t jetukoma_bytes_u64_new(jetukoma_bytes_u64 *handle, uint32_t kind, uint64_t seed) {
    if (!handle) return JETUKOMA_NO_TABLE;
    return jetukoma_bytes_u64_new_unchecked(handle, kind, seed);
}

/* Frees the table and all its bytes. The handle has no table then. The time grows with the capacity. Returns 2 if
 * the handle has no table. */
uint32_t jetukoma_bytes_u64_free_unchecked(jetukoma_bytes_u64 *handle);
JETUKOMA_API uint32_t jetukoma_bytes_u64_free(jetukoma_bytes_u64 *handle) {
    if (!handle) return JETUKOMA_NO_TABLE;
    return jetukoma_bytes_u64_free_unchecked(handle);
}

/* Writes the number of pairs. It takes constant time. */
uint32_t jetukoma_bytes_u64_len_unchecked(jetukoma_bytes_u64 *handle, size_t *len);
JETUKOMA_API uint32_t jetukoma_bytes_u64_len(jetukoma_bytes_u64 *handle, size_t *len) {
    if (!handle) return JETUKOMA_NO_TABLE;
    if (!len) return JETUKOMA_REFUSED;
    return jetukoma_bytes_u64_len_unchecked(handle, len);
}

/* Writes the capacity, which is the number of pairs for which there is memory. It takes constant time. */
uint32_t jetukoma_bytes_u64_capacity_unchecked(jetukoma_bytes_u64 *handle, size_t *capacity);
JETUKOMA_API uint32_t jetukoma_bytes_u64_capacity(jetukoma_bytes_u64 *handle, size_t *capacity) {
    if (!handle) return JETUKOMA_NO_TABLE;
    if (!capacity) return JETUKOMA_REFUSED;
    return jetukoma_bytes_u64_capacity_unchecked(handle, capacity);
}

/* Makes the capacity at least the number of pairs plus `more`. It makes it no greater than needed. Each of the next
 * `more` insertions then allocates only for its bytes. Returns 1 if there is no memory. */
uint32_t jetukoma_bytes_u64_reserve_unchecked(jetukoma_bytes_u64 *handle, size_t more);
JETUKOMA_API uint32_t jetukoma_bytes_u64_reserve(jetukoma_bytes_u64 *handle, size_t more) {
    if (!handle) return JETUKOMA_NO_TABLE;
    return jetukoma_bytes_u64_reserve_unchecked(handle, more);
}

/* Lowers a capacity above `least` to `least`, or to the number of pairs if that is more. It frees the memory that
 * this spares. The time grows with the capacity. Returns 1 if there is no memory for the smaller table. */
uint32_t jetukoma_bytes_u64_shrink_to_unchecked(jetukoma_bytes_u64 *handle, size_t least);
JETUKOMA_API uint32_t jetukoma_bytes_u64_shrink_to(jetukoma_bytes_u64 *handle, size_t least) {
    if (!handle) return JETUKOMA_NO_TABLE;
    return jetukoma_bytes_u64_shrink_to_unchecked(handle, least);
}

/* Inserts a copy of the left with the right. They overwrite the pairs with which they share a value. `kind` says
 * which pairs those are: 0 for none, 1 for the pair of the left alone, 2 for the pair of the right alone, 3 for one
 * pair with both values, and 4 for the pair of the left and the pair of the right. The table keeps the overwritten
 * pairs until the next insertion, removal or clear that is done. `overwritten_left` and `overwritten_right` copy
 * them. The call allocates for the bytes. It allocates for the pair only if it overwrites none and there is no spare
 * capacity. Returns 1 if there is no memory. */
uint32_t jetukoma_bytes_u64_insert_unchecked(jetukoma_bytes_u64 *handle, const uint8_t *left, size_t left_len, uint64_t right, uint32_t *kind);
JETUKOMA_API uint32_t jetukoma_bytes_u64_insert(jetukoma_bytes_u64 *handle, const uint8_t *left, size_t left_len, uint64_t right, uint32_t *kind) {
    if (!handle) return JETUKOMA_NO_TABLE;
    if (!left || left_len > PTRDIFF_MAX / sizeof *left || !kind) return JETUKOMA_REFUSED;
    return jetukoma_bytes_u64_insert_unchecked(handle, left, left_len, right, kind);
}

/* Inserts a copy of the left with the right if neither is contained. The table keeps no overwritten pair then.
 * Returns 1 if there is no memory, and 3 if a value is contained. */
uint32_t jetukoma_bytes_u64_insert_no_overwrite_unchecked(jetukoma_bytes_u64 *handle, const uint8_t *left, size_t left_len, uint64_t right);
JETUKOMA_API uint32_t jetukoma_bytes_u64_insert_no_overwrite(jetukoma_bytes_u64 *handle, const uint8_t *left, size_t left_len, uint64_t right) {
    if (!handle) return JETUKOMA_NO_TABLE;
    if (!left || left_len > PTRDIFF_MAX / sizeof *left) return JETUKOMA_REFUSED;
    return jetukoma_bytes_u64_insert_no_overwrite_unchecked(handle, left, left_len, right);
}

/* Inserts as `insert` does, under a policy of two flags. If the flag of a side is 1, a contained value of this side
 * refuses the insertion. If it is 0, the value is overwritten. Returns 1 if there is no memory. Returns 3 if the
 * insertion is refused or a flag is above 1. */
uint32_t jetukoma_bytes_u64_insert_with_unchecked(jetukoma_bytes_u64 *handle, const uint8_t *left, size_t left_len, uint64_t right, uint8_t left_refuses, uint8_t right_refuses, uint32_t *kind);
JETUKOMA_API uint32_t jetukoma_bytes_u64_insert_with(jetukoma_bytes_u64 *handle, const uint8_t *left, size_t left_len, uint64_t right, uint8_t left_refuses, uint8_t right_refuses, uint32_t *kind) {
    if (!handle) return JETUKOMA_NO_TABLE;
    if (!left || left_len > PTRDIFF_MAX / sizeof *left || !kind) return JETUKOMA_REFUSED;
    return jetukoma_bytes_u64_insert_with_unchecked(handle, left, left_len, right, left_refuses, right_refuses, kind);
}

/* Inserts pairs in order, each as `insert` does. The rows and the bytes are as `fill` writes them: `bytes` has the
 * bytes of the pairs, one pair behind another. `taken` gets the number of inserted pairs. Returns 1 if there is no
 * memory for the next pair. The pairs before it stay, and `taken` is written then too. Returns 3 if the rows name
 * more bytes than there are, and nothing has changed then. */
uint32_t jetukoma_bytes_u64_insert_many_unchecked(jetukoma_bytes_u64 *handle, const uint8_t *bytes, size_t bytes_len, const jetukoma_bytes_u64_row *rows, size_t rows_len, size_t *taken);
JETUKOMA_API uint32_t jetukoma_bytes_u64_insert_many(jetukoma_bytes_u64 *handle, const uint8_t *bytes, size_t bytes_len, const jetukoma_bytes_u64_row *rows, size_t rows_len, size_t *taken) {
    if (!handle) return JETUKOMA_NO_TABLE;
    if (!bytes || bytes_len > PTRDIFF_MAX / sizeof *bytes || !rows || rows_len > PTRDIFF_MAX / sizeof *rows || !taken) return JETUKOMA_REFUSED;
    return jetukoma_bytes_u64_insert_many_unchecked(handle, bytes, bytes_len, rows, rows_len, taken);
}

/* Writes the right of a left. Returns 5 if the left is not contained. */
uint32_t jetukoma_bytes_u64_get_by_left_unchecked(jetukoma_bytes_u64 *handle, const uint8_t *left, size_t left_len, uint64_t *right);
JETUKOMA_API uint32_t jetukoma_bytes_u64_get_by_left(jetukoma_bytes_u64 *handle, const uint8_t *left, size_t left_len, uint64_t *right) {
    if (!handle) return JETUKOMA_NO_TABLE;
    if (!left || left_len > PTRDIFF_MAX / sizeof *left || !right) return JETUKOMA_REFUSED;
    return jetukoma_bytes_u64_get_by_left_unchecked(handle, left, left_len, right);
}

/* Writes the left of a right to the front of a buffer, and its length. Returns 4 if the buffer is too short, and 5
 * if the right is not contained. On 4 it has written the length alone. */
uint32_t jetukoma_bytes_u64_get_by_right_unchecked(jetukoma_bytes_u64 *handle, uint64_t right, uint8_t *buf, size_t buf_len, size_t *len);
JETUKOMA_API uint32_t jetukoma_bytes_u64_get_by_right(jetukoma_bytes_u64 *handle, uint64_t right, uint8_t *buf, size_t buf_len, size_t *len) {
    if (!handle) return JETUKOMA_NO_TABLE;
    if (!buf || buf_len > PTRDIFF_MAX / sizeof *buf || !len) return JETUKOMA_REFUSED;
    return jetukoma_bytes_u64_get_by_right_unchecked(handle, right, buf, buf_len, len);
}

/* Returns 0 if the left is contained, and 5 if it is not. */
uint32_t jetukoma_bytes_u64_contains_left_unchecked(jetukoma_bytes_u64 *handle, const uint8_t *left, size_t left_len);
JETUKOMA_API uint32_t jetukoma_bytes_u64_contains_left(jetukoma_bytes_u64 *handle, const uint8_t *left, size_t left_len) {
    if (!handle) return JETUKOMA_NO_TABLE;
    if (!left || left_len > PTRDIFF_MAX / sizeof *left) return JETUKOMA_REFUSED;
    return jetukoma_bytes_u64_contains_left_unchecked(handle, left, left_len);
}

/* Returns 0 if the right is contained, and 5 if it is not. */
uint32_t jetukoma_bytes_u64_contains_right_unchecked(jetukoma_bytes_u64 *handle, uint64_t right);
JETUKOMA_API uint32_t jetukoma_bytes_u64_contains_right(jetukoma_bytes_u64 *handle, uint64_t right) {
    if (!handle) return JETUKOMA_NO_TABLE;
    return jetukoma_bytes_u64_contains_right_unchecked(handle, right);
}

/* Removes the pair of a left. The table keeps the pair, so that `overwritten_left` and `overwritten_right` copy it.
 * Returns 5 if the left is not contained. */
uint32_t jetukoma_bytes_u64_remove_by_left_unchecked(jetukoma_bytes_u64 *handle, const uint8_t *left, size_t left_len);
JETUKOMA_API uint32_t jetukoma_bytes_u64_remove_by_left(jetukoma_bytes_u64 *handle, const uint8_t *left, size_t left_len) {
    if (!handle) return JETUKOMA_NO_TABLE;
    if (!left || left_len > PTRDIFF_MAX / sizeof *left) return JETUKOMA_REFUSED;
    return jetukoma_bytes_u64_remove_by_left_unchecked(handle, left, left_len);
}

/* Removes the pair of a right. The table keeps the pair, so that `overwritten_left` and `overwritten_right` copy it.
 * Returns 5 if the right is not contained. */
uint32_t jetukoma_bytes_u64_remove_by_right_unchecked(jetukoma_bytes_u64 *handle, uint64_t right);
JETUKOMA_API uint32_t jetukoma_bytes_u64_remove_by_right(jetukoma_bytes_u64 *handle, uint64_t right) {
    if (!handle) return JETUKOMA_NO_TABLE;
    return jetukoma_bytes_u64_remove_by_right_unchecked(handle, right);
}

/* Writes the left of a pair that the last change overwrote or removed to the front of a buffer, and its length. If
 * the change was an insertion that overwrote two pairs, index 0 is the pair of the left, and index 1 is the pair of
 * the right. Otherwise index 0 is the pair. Returns 4 if the buffer is too short, and 5 if there is no such pair. On
 * 4 it has written the length alone. */
uint32_t jetukoma_bytes_u64_overwritten_left_unchecked(jetukoma_bytes_u64 *handle, size_t index, uint8_t *buf, size_t buf_len, size_t *len);
JETUKOMA_API uint32_t jetukoma_bytes_u64_overwritten_left(jetukoma_bytes_u64 *handle, size_t index, uint8_t *buf, size_t buf_len, size_t *len) {
    if (!handle) return JETUKOMA_NO_TABLE;
    if (!buf || buf_len > PTRDIFF_MAX / sizeof *buf || !len) return JETUKOMA_REFUSED;
    return jetukoma_bytes_u64_overwritten_left_unchecked(handle, index, buf, buf_len, len);
}

/* Writes the right of a pair that the last change overwrote or removed. The index is that of `overwritten_left`.
 * Returns 5 if there is no such pair. */
uint32_t jetukoma_bytes_u64_overwritten_right_unchecked(jetukoma_bytes_u64 *handle, size_t index, uint64_t *right);
JETUKOMA_API uint32_t jetukoma_bytes_u64_overwritten_right(jetukoma_bytes_u64 *handle, size_t index, uint64_t *right) {
    if (!handle) return JETUKOMA_NO_TABLE;
    if (!right) return JETUKOMA_REFUSED;
    return jetukoma_bytes_u64_overwritten_right_unchecked(handle, index, right);
}

/* Removes all pairs. The capacity does not change. The time grows with the capacity. The table keeps no overwritten
 * pair then. */
uint32_t jetukoma_bytes_u64_clear_unchecked(jetukoma_bytes_u64 *handle);
JETUKOMA_API uint32_t jetukoma_bytes_u64_clear(jetukoma_bytes_u64 *handle) {
    if (!handle) return JETUKOMA_NO_TABLE;
    return jetukoma_bytes_u64_clear_unchecked(handle);
}

/* Writes the pairs as the text of a JSON object to the front of a buffer, and its length. Each pair is a name and
 * its number. The names are in ascending order of their bytes. The call allocates for all pairs. Returns 1 if there
 * is no memory, 3 if a left is not UTF-8, and 4 if the buffer is too short. On 4 it has written the length alone. */
uint32_t jetukoma_bytes_u64_to_json_unchecked(jetukoma_bytes_u64 *handle, uint8_t *buf, size_t buf_len, size_t *len);
JETUKOMA_API uint32_t jetukoma_bytes_u64_to_json(jetukoma_bytes_u64 *handle, uint8_t *buf, size_t buf_len, size_t *len) {
    if (!handle) return JETUKOMA_NO_TABLE;
    if (!buf || buf_len > PTRDIFF_MAX / sizeof *buf || !len) return JETUKOMA_REFUSED;
    return jetukoma_bytes_u64_to_json_unchecked(handle, buf, buf_len, len);
}

/* Reads the text of such an object. Its pairs replace those of the table, and the table keeps no overwritten pair
 * then. The kind and the seed stay. The pairs are inserted in ascending order of their names. The call allocates for
 * all pairs. Returns 1 if there is no memory. Returns 3 if the text is no such object, or if it has a name or a
 * number twice. */
uint32_t jetukoma_bytes_u64_from_json_unchecked(jetukoma_bytes_u64 *handle, const uint8_t *text, size_t text_len);
JETUKOMA_API uint32_t jetukoma_bytes_u64_from_json(jetukoma_bytes_u64 *handle, const uint8_t *text, size_t text_len) {
    if (!handle) return JETUKOMA_NO_TABLE;
    if (!text || text_len > PTRDIFF_MAX / sizeof *text) return JETUKOMA_REFUSED;
    return jetukoma_bytes_u64_from_json_unchecked(handle, text, text_len);
}

/* Makes a clone of the table for a handle `copy` that has no table. The clone has the kind, the seed, the capacity
 * and the pairs of the table, in the same order. It keeps no overwritten pair. The time grows with the capacity and
 * the bytes. Returns 1 if there is no memory. Returns 2 also if `copy` has a table. */
uint32_t jetukoma_bytes_u64_clone_unchecked(jetukoma_bytes_u64 *handle, jetukoma_bytes_u64 *copy);
JETUKOMA_API uint32_t jetukoma_bytes_u64_clone(jetukoma_bytes_u64 *handle, jetukoma_bytes_u64 *copy) {
    if (!handle || !copy) return JETUKOMA_NO_TABLE;
    if (handle == copy) return JETUKOMA_NO_TABLE;
    return jetukoma_bytes_u64_clone_unchecked(handle, copy);
}

/* Returns 0 if both tables have the same pairs, and 5 if they do not. The tables may be of two kinds, and their
 * orders do not matter. It takes a look-up by left in the other table for each pair. */
uint32_t jetukoma_bytes_u64_equals_unchecked(jetukoma_bytes_u64 *handle, jetukoma_bytes_u64 *other);
JETUKOMA_API uint32_t jetukoma_bytes_u64_equals(jetukoma_bytes_u64 *handle, jetukoma_bytes_u64 *other) {
    if (!handle || !other) return JETUKOMA_NO_TABLE;
    size_t len;
    if (handle == other) return jetukoma_bytes_u64_len_unchecked(handle, &len);
    return jetukoma_bytes_u64_equals_unchecked(handle, other);
}

/* Returns 0 if the other table contains each pair of the table, and 5 if it does not. The tables may be of two
 * kinds. It takes a look-up by left in the other table for each pair. */
uint32_t jetukoma_bytes_u64_is_subset_unchecked(jetukoma_bytes_u64 *handle, jetukoma_bytes_u64 *other);
JETUKOMA_API uint32_t jetukoma_bytes_u64_is_subset(jetukoma_bytes_u64 *handle, jetukoma_bytes_u64 *other) {
    if (!handle || !other) return JETUKOMA_NO_TABLE;
    size_t len;
    if (handle == other) return jetukoma_bytes_u64_len_unchecked(handle, &len);
    return jetukoma_bytes_u64_is_subset_unchecked(handle, other);
}

/* Writes pairs to the front of `rows`, each as the number of bytes of its left, and its right. The bytes of these
 * lefts go to the front of a buffer, one left behind another. The call leaves out the first `start` pairs. It writes
 * as many pairs as there are rows and as fit into the buffer. `filled` gets the number of these pairs, and `len`
 * that of their bytes. An ordered table has its pairs in ascending order of their lefts, and a table in insertion
 * order in that order. The order of a hashed table is not specified, and it stays the same until the table changes.
 * An ordered table takes one search, and at most one descent in the tree for each pair. A table of another kind
 * passes over the pairs that it leaves out. To read all its pairs, use many rows and a long buffer. Returns 4 if
 * there is a row, and the buffer is too short for the next pair. On 4 it has written the number of bytes of this
 * pair to `len` alone. */
uint32_t jetukoma_bytes_u64_fill_unchecked(jetukoma_bytes_u64 *handle, size_t start, uint8_t *buf, size_t buf_len, jetukoma_bytes_u64_row *rows, size_t rows_len, size_t *len, size_t *filled);
JETUKOMA_API uint32_t jetukoma_bytes_u64_fill(jetukoma_bytes_u64 *handle, size_t start, uint8_t *buf, size_t buf_len, jetukoma_bytes_u64_row *rows, size_t rows_len, size_t *len, size_t *filled) {
    if (!handle) return JETUKOMA_NO_TABLE;
    if (!buf || buf_len > PTRDIFF_MAX / sizeof *buf || !rows || rows_len > PTRDIFF_MAX / sizeof *rows || !len || !filled) return JETUKOMA_REFUSED;
    return jetukoma_bytes_u64_fill_unchecked(handle, start, buf, buf_len, rows, rows_len, len, filled);
}

/* Writes pairs as `fill` does, but in the reverse order. It leaves out the last `start` pairs, which it passes over.
 * Returns 4 as `fill` does, and 6 if the table is hashed. */
uint32_t jetukoma_bytes_u64_fill_back_unchecked(jetukoma_bytes_u64 *handle, size_t start, uint8_t *buf, size_t buf_len, jetukoma_bytes_u64_row *rows, size_t rows_len, size_t *len, size_t *filled);
JETUKOMA_API uint32_t jetukoma_bytes_u64_fill_back(jetukoma_bytes_u64 *handle, size_t start, uint8_t *buf, size_t buf_len, jetukoma_bytes_u64_row *rows, size_t rows_len, size_t *len, size_t *filled) {
    if (!handle) return JETUKOMA_NO_TABLE;
    if (!buf || buf_len > PTRDIFF_MAX / sizeof *buf || !rows || rows_len > PTRDIFF_MAX / sizeof *rows || !len || !filled) return JETUKOMA_REFUSED;
    return jetukoma_bytes_u64_fill_back_unchecked(handle, start, buf, buf_len, rows, rows_len, len, filled);
}

/* Writes the pair whose left has exactly `rank` lefts below it. It writes the left to the front of a buffer, and its
 * length, and the right. It takes one search. Returns 4 if the buffer is too short, 5 if there are no more pairs,
 * and 6 if the table is not ordered. On 4 it has written the length alone. */
uint32_t jetukoma_bytes_u64_pair_at_rank_unchecked(jetukoma_bytes_u64 *handle, size_t rank, uint8_t *buf, size_t buf_len, size_t *len, uint64_t *right);
JETUKOMA_API uint32_t jetukoma_bytes_u64_pair_at_rank(jetukoma_bytes_u64 *handle, size_t rank, uint8_t *buf, size_t buf_len, size_t *len, uint64_t *right) {
    if (!handle) return JETUKOMA_NO_TABLE;
    if (!buf || buf_len > PTRDIFF_MAX / sizeof *buf || !len || !right) return JETUKOMA_REFUSED;
    return jetukoma_bytes_u64_pair_at_rank_unchecked(handle, rank, buf, buf_len, len, right);
}

/* Writes how many lefts are less than this one, compared byte by byte. This one need not be contained. Returns 6 if
 * the table is not ordered. */
uint32_t jetukoma_bytes_u64_left_rank_unchecked(jetukoma_bytes_u64 *handle, const uint8_t *left, size_t left_len, size_t *rank);
JETUKOMA_API uint32_t jetukoma_bytes_u64_left_rank(jetukoma_bytes_u64 *handle, const uint8_t *left, size_t left_len, size_t *rank) {
    if (!handle) return JETUKOMA_NO_TABLE;
    if (!left || left_len > PTRDIFF_MAX / sizeof *left || !rank) return JETUKOMA_REFUSED;
    return jetukoma_bytes_u64_left_rank_unchecked(handle, left, left_len, rank);
}

/* Writes how many rights are less than this one, which need not be contained. Returns 6 if the table is not ordered. */
uint32_t jetukoma_bytes_u64_right_rank_unchecked(jetukoma_bytes_u64 *handle, uint64_t right, size_t *rank);
JETUKOMA_API uint32_t jetukoma_bytes_u64_right_rank(jetukoma_bytes_u64 *handle, uint64_t right, size_t *rank) {
    if (!handle) return JETUKOMA_NO_TABLE;
    if (!rank) return JETUKOMA_REFUSED;
    return jetukoma_bytes_u64_right_rank_unchecked(handle, right, rank);
}

/* Writes pairs as `fill` does, but in ascending order of their rights. It takes one search, and at most one descent
 * in the tree for each pair. Returns 4 as `fill` does, and 6 if the table is not ordered. */
uint32_t jetukoma_bytes_u64_fill_by_right_unchecked(jetukoma_bytes_u64 *handle, size_t start, uint8_t *buf, size_t buf_len, jetukoma_bytes_u64_row *rows, size_t rows_len, size_t *len, size_t *filled);
JETUKOMA_API uint32_t jetukoma_bytes_u64_fill_by_right(jetukoma_bytes_u64 *handle, size_t start, uint8_t *buf, size_t buf_len, jetukoma_bytes_u64_row *rows, size_t rows_len, size_t *len, size_t *filled) {
    if (!handle) return JETUKOMA_NO_TABLE;
    if (!buf || buf_len > PTRDIFF_MAX / sizeof *buf || !rows || rows_len > PTRDIFF_MAX / sizeof *rows || !len || !filled) return JETUKOMA_REFUSED;
    return jetukoma_bytes_u64_fill_by_right_unchecked(handle, start, buf, buf_len, rows, rows_len, len, filled);
}

/* Removes a pair. In an ordered table it is the pair of the least left. In a table in insertion order it is the
 * first pair. The table keeps it, so that `overwritten_left` and `overwritten_right` copy it. Returns 5 if there are
 * no pairs, and 6 if the table is hashed. */
uint32_t jetukoma_bytes_u64_pop_first_unchecked(jetukoma_bytes_u64 *handle);
JETUKOMA_API uint32_t jetukoma_bytes_u64_pop_first(jetukoma_bytes_u64 *handle) {
    if (!handle) return JETUKOMA_NO_TABLE;
    return jetukoma_bytes_u64_pop_first_unchecked(handle);
}

/* Removes a pair. In an ordered table it is the pair of the greatest left. In a table in insertion order it is the
 * last pair. The table keeps it, so that `overwritten_left` and `overwritten_right` copy it. Returns 5 if there are
 * no pairs, and 6 if the table is hashed. */
uint32_t jetukoma_bytes_u64_pop_last_unchecked(jetukoma_bytes_u64 *handle);
JETUKOMA_API uint32_t jetukoma_bytes_u64_pop_last(jetukoma_bytes_u64 *handle) {
    if (!handle) return JETUKOMA_NO_TABLE;
    return jetukoma_bytes_u64_pop_last_unchecked(handle);
}

/* Moves the pair of a left to the front of the insertion order. The other pairs keep their order. Returns 5 if the
 * left is not contained, and 6 if the table is not in insertion order. */
uint32_t jetukoma_bytes_u64_to_front_unchecked(jetukoma_bytes_u64 *handle, const uint8_t *left, size_t left_len);
JETUKOMA_API uint32_t jetukoma_bytes_u64_to_front(jetukoma_bytes_u64 *handle, const uint8_t *left, size_t left_len) {
    if (!handle) return JETUKOMA_NO_TABLE;
    if (!left || left_len > PTRDIFF_MAX / sizeof *left) return JETUKOMA_REFUSED;
    return jetukoma_bytes_u64_to_front_unchecked(handle, left, left_len);
}

/* Moves the pair of a left to the end of the insertion order. The other pairs keep their order. Returns 5 if the
 * left is not contained, and 6 if the table is not in insertion order. */
uint32_t jetukoma_bytes_u64_to_back_unchecked(jetukoma_bytes_u64 *handle, const uint8_t *left, size_t left_len);
JETUKOMA_API uint32_t jetukoma_bytes_u64_to_back(jetukoma_bytes_u64 *handle, const uint8_t *left, size_t left_len) {
    if (!handle) return JETUKOMA_NO_TABLE;
    if (!left || left_len > PTRDIFF_MAX / sizeof *left) return JETUKOMA_REFUSED;
    return jetukoma_bytes_u64_to_back_unchecked(handle, left, left_len);
}

/* A pair: the number of bytes of its left, and that of its right. */
typedef struct {
    size_t left_len;
    size_t right_len;
} jetukoma_bytes_bytes_row;

/* A table with byte strings on both sides. */
typedef struct {
    void *at;
    bool live;
} jetukoma_bytes_bytes;

/* Makes an empty table of capacity 0 for a handle that has no table. The kind is one of the numbers above. The
 * hashes of both sides depend on the seed. An ordered table does not use the seed. The call takes constant time.
 * Returns 1 if there is no memory, 2 if the handle has a table, and 3 if there is no such kind. */
uint32_t jetukoma_bytes_bytes_new_unchecked(jetukoma_bytes_bytes *handle, uint32_t kind, uint64_t seed);
JETUKOMA_API uint32_t jetukoma_bytes_bytes_new(jetukoma_bytes_bytes *handle, uint32_t kind, uint64_t seed) {
    if (!handle) return JETUKOMA_NO_TABLE;
    return jetukoma_bytes_bytes_new_unchecked(handle, kind, seed);
}

/* Frees the table and all its bytes. The handle has no table then. The time grows with the capacity. Returns 2 if
 * the handle has no table. */
uint32_t jetukoma_bytes_bytes_free_unchecked(jetukoma_bytes_bytes *handle);
JETUKOMA_API uint32_t jetukoma_bytes_bytes_free(jetukoma_bytes_bytes *handle) {
    if (!handle) return JETUKOMA_NO_TABLE;
    return jetukoma_bytes_bytes_free_unchecked(handle);
}

/* Writes the number of pairs. It takes constant time. */
uint32_t jetukoma_bytes_bytes_len_unchecked(jetukoma_bytes_bytes *handle, size_t *len);
JETUKOMA_API uint32_t jetukoma_bytes_bytes_len(jetukoma_bytes_bytes *handle, size_t *len) {
    if (!handle) return JETUKOMA_NO_TABLE;
    if (!len) return JETUKOMA_REFUSED;
    return jetukoma_bytes_bytes_len_unchecked(handle, len);
}

/* Writes the capacity, which is the number of pairs for which there is memory. It takes constant time. */
uint32_t jetukoma_bytes_bytes_capacity_unchecked(jetukoma_bytes_bytes *handle, size_t *capacity);
JETUKOMA_API uint32_t jetukoma_bytes_bytes_capacity(jetukoma_bytes_bytes *handle, size_t *capacity) {
    if (!handle) return JETUKOMA_NO_TABLE;
    if (!capacity) return JETUKOMA_REFUSED;
    return jetukoma_bytes_bytes_capacity_unchecked(handle, capacity);
}

/* Makes the capacity at least the number of pairs plus `more`. It makes it no greater than needed. Each of the next
 * `more` insertions then allocates only for its bytes. Returns 1 if there is no memory. */
uint32_t jetukoma_bytes_bytes_reserve_unchecked(jetukoma_bytes_bytes *handle, size_t more);
JETUKOMA_API uint32_t jetukoma_bytes_bytes_reserve(jetukoma_bytes_bytes *handle, size_t more) {
    if (!handle) return JETUKOMA_NO_TABLE;
    return jetukoma_bytes_bytes_reserve_unchecked(handle, more);
}

/* Lowers a capacity above `least` to `least`, or to the number of pairs if that is more. It frees the memory that
 * this spares. The time grows with the capacity. Returns 1 if there is no memory for the smaller table. */
uint32_t jetukoma_bytes_bytes_shrink_to_unchecked(jetukoma_bytes_bytes *handle, size_t least);
JETUKOMA_API uint32_t jetukoma_bytes_bytes_shrink_to(jetukoma_bytes_bytes *handle, size_t least) {
    if (!handle) return JETUKOMA_NO_TABLE;
    return jetukoma_bytes_bytes_shrink_to_unchecked(handle, least);
}

/* Inserts copies of the left and the right. They overwrite the pairs with which they share a value. `kind` says
 * which pairs those are: 0 for none, 1 for the pair of the left alone, 2 for the pair of the right alone, 3 for one
 * pair with both values, and 4 for the pair of the left and the pair of the right. The table keeps the overwritten
 * pairs until the next insertion, removal or clear that is done. `overwritten_left` and `overwritten_right` copy
 * them. The call allocates for the bytes. It allocates for the pair only if it overwrites none and there is no spare
 * capacity. Returns 1 if there is no memory. */
uint32_t jetukoma_bytes_bytes_insert_unchecked(jetukoma_bytes_bytes *handle, const uint8_t *left, size_t left_len, const uint8_t *right, size_t right_len, uint32_t *kind);
JETUKOMA_API uint32_t jetukoma_bytes_bytes_insert(jetukoma_bytes_bytes *handle, const uint8_t *left, size_t left_len, const uint8_t *right, size_t right_len, uint32_t *kind) {
    if (!handle) return JETUKOMA_NO_TABLE;
    if (!left || left_len > PTRDIFF_MAX / sizeof *left || !right || right_len > PTRDIFF_MAX / sizeof *right || !kind) return JETUKOMA_REFUSED;
    return jetukoma_bytes_bytes_insert_unchecked(handle, left, left_len, right, right_len, kind);
}

/* Inserts copies of the left and the right if neither is contained. The table keeps no overwritten pair then.
 * Returns 1 if there is no memory, and 3 if a value is contained. */
uint32_t jetukoma_bytes_bytes_insert_no_overwrite_unchecked(jetukoma_bytes_bytes *handle, const uint8_t *left, size_t left_len, const uint8_t *right, size_t right_len);
JETUKOMA_API uint32_t jetukoma_bytes_bytes_insert_no_overwrite(jetukoma_bytes_bytes *handle, const uint8_t *left, size_t left_len, const uint8_t *right, size_t right_len) {
    if (!handle) return JETUKOMA_NO_TABLE;
    if (!left || left_len > PTRDIFF_MAX / sizeof *left || !right || right_len > PTRDIFF_MAX / sizeof *right) return JETUKOMA_REFUSED;
    return jetukoma_bytes_bytes_insert_no_overwrite_unchecked(handle, left, left_len, right, right_len);
}

/* Inserts as `insert` does, under a policy of two flags. If the flag of a side is 1, a contained value of this side
 * refuses the insertion. If it is 0, the value is overwritten. Returns 1 if there is no memory. Returns 3 if the
 * insertion is refused or a flag is above 1. */
uint32_t jetukoma_bytes_bytes_insert_with_unchecked(jetukoma_bytes_bytes *handle, const uint8_t *left, size_t left_len, const uint8_t *right, size_t right_len, uint8_t left_refuses, uint8_t right_refuses, uint32_t *kind);
JETUKOMA_API uint32_t jetukoma_bytes_bytes_insert_with(jetukoma_bytes_bytes *handle, const uint8_t *left, size_t left_len, const uint8_t *right, size_t right_len, uint8_t left_refuses, uint8_t right_refuses, uint32_t *kind) {
    if (!handle) return JETUKOMA_NO_TABLE;
    if (!left || left_len > PTRDIFF_MAX / sizeof *left || !right || right_len > PTRDIFF_MAX / sizeof *right || !kind) return JETUKOMA_REFUSED;
    return jetukoma_bytes_bytes_insert_with_unchecked(handle, left, left_len, right, right_len, left_refuses, right_refuses, kind);
}

/* Inserts pairs in order, each as `insert` does. The rows and the bytes are as `fill` writes them: `bytes` has the
 * bytes of the pairs, one pair behind another. `taken` gets the number of inserted pairs. Returns 1 if there is no
 * memory for the next pair. The pairs before it stay, and `taken` is written then too. Returns 3 if the rows name
 * more bytes than there are, and nothing has changed then. */
uint32_t jetukoma_bytes_bytes_insert_many_unchecked(jetukoma_bytes_bytes *handle, const uint8_t *bytes, size_t bytes_len, const jetukoma_bytes_bytes_row *rows, size_t rows_len, size_t *taken);
JETUKOMA_API uint32_t jetukoma_bytes_bytes_insert_many(jetukoma_bytes_bytes *handle, const uint8_t *bytes, size_t bytes_len, const jetukoma_bytes_bytes_row *rows, size_t rows_len, size_t *taken) {
    if (!handle) return JETUKOMA_NO_TABLE;
    if (!bytes || bytes_len > PTRDIFF_MAX / sizeof *bytes || !rows || rows_len > PTRDIFF_MAX / sizeof *rows || !taken) return JETUKOMA_REFUSED;
    return jetukoma_bytes_bytes_insert_many_unchecked(handle, bytes, bytes_len, rows, rows_len, taken);
}

/* Writes the right of a left to the front of a buffer, and its length. Returns 4 if the buffer is too short, and 5
 * if the left is not contained. On 4 it has written the length alone. */
uint32_t jetukoma_bytes_bytes_get_by_left_unchecked(jetukoma_bytes_bytes *handle, const uint8_t *left, size_t left_len, uint8_t *buf, size_t buf_len, size_t *len);
JETUKOMA_API uint32_t jetukoma_bytes_bytes_get_by_left(jetukoma_bytes_bytes *handle, const uint8_t *left, size_t left_len, uint8_t *buf, size_t buf_len, size_t *len) {
    if (!handle) return JETUKOMA_NO_TABLE;
    if (!left || left_len > PTRDIFF_MAX / sizeof *left || !buf || buf_len > PTRDIFF_MAX / sizeof *buf || !len) return JETUKOMA_REFUSED;
    return jetukoma_bytes_bytes_get_by_left_unchecked(handle, left, left_len, buf, buf_len, len);
}

/* Writes the left of a right to the front of a buffer, and its length. Returns 4 if the buffer is too short, and 5
 * if the right is not contained. On 4 it has written the length alone. */
uint32_t jetukoma_bytes_bytes_get_by_right_unchecked(jetukoma_bytes_bytes *handle, const uint8_t *right, size_t right_len, uint8_t *buf, size_t buf_len, size_t *len);
JETUKOMA_API uint32_t jetukoma_bytes_bytes_get_by_right(jetukoma_bytes_bytes *handle, const uint8_t *right, size_t right_len, uint8_t *buf, size_t buf_len, size_t *len) {
    if (!handle) return JETUKOMA_NO_TABLE;
    if (!right || right_len > PTRDIFF_MAX / sizeof *right || !buf || buf_len > PTRDIFF_MAX / sizeof *buf || !len) return JETUKOMA_REFUSED;
    return jetukoma_bytes_bytes_get_by_right_unchecked(handle, right, right_len, buf, buf_len, len);
}

/* Returns 0 if the left is contained, and 5 if it is not. */
uint32_t jetukoma_bytes_bytes_contains_left_unchecked(jetukoma_bytes_bytes *handle, const uint8_t *left, size_t left_len);
JETUKOMA_API uint32_t jetukoma_bytes_bytes_contains_left(jetukoma_bytes_bytes *handle, const uint8_t *left, size_t left_len) {
    if (!handle) return JETUKOMA_NO_TABLE;
    if (!left || left_len > PTRDIFF_MAX / sizeof *left) return JETUKOMA_REFUSED;
    return jetukoma_bytes_bytes_contains_left_unchecked(handle, left, left_len);
}

/* Returns 0 if the right is contained, and 5 if it is not. */
uint32_t jetukoma_bytes_bytes_contains_right_unchecked(jetukoma_bytes_bytes *handle, const uint8_t *right, size_t right_len);
JETUKOMA_API uint32_t jetukoma_bytes_bytes_contains_right(jetukoma_bytes_bytes *handle, const uint8_t *right, size_t right_len) {
    if (!handle) return JETUKOMA_NO_TABLE;
    if (!right || right_len > PTRDIFF_MAX / sizeof *right) return JETUKOMA_REFUSED;
    return jetukoma_bytes_bytes_contains_right_unchecked(handle, right, right_len);
}

/* Removes the pair of a left. The table keeps the pair, so that `overwritten_left` and `overwritten_right` copy it.
 * Returns 5 if the left is not contained. */
uint32_t jetukoma_bytes_bytes_remove_by_left_unchecked(jetukoma_bytes_bytes *handle, const uint8_t *left, size_t left_len);
JETUKOMA_API uint32_t jetukoma_bytes_bytes_remove_by_left(jetukoma_bytes_bytes *handle, const uint8_t *left, size_t left_len) {
    if (!handle) return JETUKOMA_NO_TABLE;
    if (!left || left_len > PTRDIFF_MAX / sizeof *left) return JETUKOMA_REFUSED;
    return jetukoma_bytes_bytes_remove_by_left_unchecked(handle, left, left_len);
}

/* Removes the pair of a right. The table keeps the pair, so that `overwritten_left` and `overwritten_right` copy it.
 * Returns 5 if the right is not contained. */
uint32_t jetukoma_bytes_bytes_remove_by_right_unchecked(jetukoma_bytes_bytes *handle, const uint8_t *right, size_t right_len);
JETUKOMA_API uint32_t jetukoma_bytes_bytes_remove_by_right(jetukoma_bytes_bytes *handle, const uint8_t *right, size_t right_len) {
    if (!handle) return JETUKOMA_NO_TABLE;
    if (!right || right_len > PTRDIFF_MAX / sizeof *right) return JETUKOMA_REFUSED;
    return jetukoma_bytes_bytes_remove_by_right_unchecked(handle, right, right_len);
}

/* Writes the left of a pair that the last change overwrote or removed to the front of a buffer, and its length. If
 * the change was an insertion that overwrote two pairs, index 0 is the pair of the left, and index 1 is the pair of
 * the right. Otherwise index 0 is the pair. Returns 4 if the buffer is too short, and 5 if there is no such pair. On
 * 4 it has written the length alone. */
uint32_t jetukoma_bytes_bytes_overwritten_left_unchecked(jetukoma_bytes_bytes *handle, size_t index, uint8_t *buf, size_t buf_len, size_t *len);
JETUKOMA_API uint32_t jetukoma_bytes_bytes_overwritten_left(jetukoma_bytes_bytes *handle, size_t index, uint8_t *buf, size_t buf_len, size_t *len) {
    if (!handle) return JETUKOMA_NO_TABLE;
    if (!buf || buf_len > PTRDIFF_MAX / sizeof *buf || !len) return JETUKOMA_REFUSED;
    return jetukoma_bytes_bytes_overwritten_left_unchecked(handle, index, buf, buf_len, len);
}

/* Writes the right of a pair that the last change overwrote or removed to the front of a buffer, and its length. The
 * index and the statuses are those of `overwritten_left`. */
uint32_t jetukoma_bytes_bytes_overwritten_right_unchecked(jetukoma_bytes_bytes *handle, size_t index, uint8_t *buf, size_t buf_len, size_t *len);
JETUKOMA_API uint32_t jetukoma_bytes_bytes_overwritten_right(jetukoma_bytes_bytes *handle, size_t index, uint8_t *buf, size_t buf_len, size_t *len) {
    if (!handle) return JETUKOMA_NO_TABLE;
    if (!buf || buf_len > PTRDIFF_MAX / sizeof *buf || !len) return JETUKOMA_REFUSED;
    return jetukoma_bytes_bytes_overwritten_right_unchecked(handle, index, buf, buf_len, len);
}

/* Removes all pairs. The capacity does not change. The time grows with the capacity. The table keeps no overwritten
 * pair then. */
uint32_t jetukoma_bytes_bytes_clear_unchecked(jetukoma_bytes_bytes *handle);
JETUKOMA_API uint32_t jetukoma_bytes_bytes_clear(jetukoma_bytes_bytes *handle) {
    if (!handle) return JETUKOMA_NO_TABLE;
    return jetukoma_bytes_bytes_clear_unchecked(handle);
}

/* Makes a clone of the table for a handle `copy` that has no table. The clone has the kind, the seed, the capacity
 * and the pairs of the table, in the same order. It keeps no overwritten pair. The time grows with the capacity and
 * the bytes. Returns 1 if there is no memory. Returns 2 also if `copy` has a table. */
uint32_t jetukoma_bytes_bytes_clone_unchecked(jetukoma_bytes_bytes *handle, jetukoma_bytes_bytes *copy);
JETUKOMA_API uint32_t jetukoma_bytes_bytes_clone(jetukoma_bytes_bytes *handle, jetukoma_bytes_bytes *copy) {
    if (!handle || !copy) return JETUKOMA_NO_TABLE;
    if (handle == copy) return JETUKOMA_NO_TABLE;
    return jetukoma_bytes_bytes_clone_unchecked(handle, copy);
}

/* Returns 0 if both tables have the same pairs, and 5 if they do not. The tables may be of two kinds, and their
 * orders do not matter. It takes a look-up by left in the other table for each pair. */
uint32_t jetukoma_bytes_bytes_equals_unchecked(jetukoma_bytes_bytes *handle, jetukoma_bytes_bytes *other);
JETUKOMA_API uint32_t jetukoma_bytes_bytes_equals(jetukoma_bytes_bytes *handle, jetukoma_bytes_bytes *other) {
    if (!handle || !other) return JETUKOMA_NO_TABLE;
    size_t len;
    if (handle == other) return jetukoma_bytes_bytes_len_unchecked(handle, &len);
    return jetukoma_bytes_bytes_equals_unchecked(handle, other);
}

/* Returns 0 if the other table contains each pair of the table, and 5 if it does not. The tables may be of two
 * kinds. It takes a look-up by left in the other table for each pair. */
uint32_t jetukoma_bytes_bytes_is_subset_unchecked(jetukoma_bytes_bytes *handle, jetukoma_bytes_bytes *other);
JETUKOMA_API uint32_t jetukoma_bytes_bytes_is_subset(jetukoma_bytes_bytes *handle, jetukoma_bytes_bytes *other) {
    if (!handle || !other) return JETUKOMA_NO_TABLE;
    size_t len;
    if (handle == other) return jetukoma_bytes_bytes_len_unchecked(handle, &len);
    return jetukoma_bytes_bytes_is_subset_unchecked(handle, other);
}

/* Writes pairs to the front of `rows`, each as the number of bytes of its left, and that of its right. The bytes go
 * to the front of a buffer, one pair behind another, and the left of a pair before its right. The call leaves out
 * the first `start` pairs. It writes as many pairs as there are rows and as fit into the buffer. `filled` gets the
 * number of these pairs, and `len` that of their bytes. An ordered table has its pairs in ascending order of their
 * lefts, and a table in insertion order in that order. The order of a hashed table is not specified, and it stays
 * the same until the table changes. An ordered table takes one search, and at most one descent in the tree for each
 * pair. A table of another kind passes over the pairs that it leaves out. To read all its pairs, use many rows and a
 * long buffer. Returns 4 if there is a row, and the buffer is too short for the next pair. On 4 it has written the
 * number of bytes of this pair to `len` alone. */
uint32_t jetukoma_bytes_bytes_fill_unchecked(jetukoma_bytes_bytes *handle, size_t start, uint8_t *buf, size_t buf_len, jetukoma_bytes_bytes_row *rows, size_t rows_len, size_t *len, size_t *filled);
JETUKOMA_API uint32_t jetukoma_bytes_bytes_fill(jetukoma_bytes_bytes *handle, size_t start, uint8_t *buf, size_t buf_len, jetukoma_bytes_bytes_row *rows, size_t rows_len, size_t *len, size_t *filled) {
    if (!handle) return JETUKOMA_NO_TABLE;
    if (!buf || buf_len > PTRDIFF_MAX / sizeof *buf || !rows || rows_len > PTRDIFF_MAX / sizeof *rows || !len || !filled) return JETUKOMA_REFUSED;
    return jetukoma_bytes_bytes_fill_unchecked(handle, start, buf, buf_len, rows, rows_len, len, filled);
}

/* Writes pairs as `fill` does, but in the reverse order. It leaves out the last `start` pairs, which it passes over.
 * Returns 4 as `fill` does, and 6 if the table is hashed. */
uint32_t jetukoma_bytes_bytes_fill_back_unchecked(jetukoma_bytes_bytes *handle, size_t start, uint8_t *buf, size_t buf_len, jetukoma_bytes_bytes_row *rows, size_t rows_len, size_t *len, size_t *filled);
JETUKOMA_API uint32_t jetukoma_bytes_bytes_fill_back(jetukoma_bytes_bytes *handle, size_t start, uint8_t *buf, size_t buf_len, jetukoma_bytes_bytes_row *rows, size_t rows_len, size_t *len, size_t *filled) {
    if (!handle) return JETUKOMA_NO_TABLE;
    if (!buf || buf_len > PTRDIFF_MAX / sizeof *buf || !rows || rows_len > PTRDIFF_MAX / sizeof *rows || !len || !filled) return JETUKOMA_REFUSED;
    return jetukoma_bytes_bytes_fill_back_unchecked(handle, start, buf, buf_len, rows, rows_len, len, filled);
}

/* Writes the pair whose left has exactly `rank` lefts below it. It writes each value to the front of its buffer, and
 * the two lengths. It takes one search. Returns 4 if a buffer is too short, 5 if there are no more pairs, and 6 if
 * the table is not ordered. On 4 it has written the lengths alone. */
uint32_t jetukoma_bytes_bytes_pair_at_rank_unchecked(jetukoma_bytes_bytes *handle, size_t rank, uint8_t *left_buf, size_t left_buf_len, size_t *left_len, uint8_t *right_buf, size_t right_buf_len, size_t *right_len);
JETUKOMA_API uint32_t jetukoma_bytes_bytes_pair_at_rank(jetukoma_bytes_bytes *handle, size_t rank, uint8_t *left_buf, size_t left_buf_len, size_t *left_len, uint8_t *right_buf, size_t right_buf_len, size_t *right_len) {
    if (!handle) return JETUKOMA_NO_TABLE;
    if (!left_buf || left_buf_len > PTRDIFF_MAX / sizeof *left_buf || !left_len || !right_buf || right_buf_len > PTRDIFF_MAX / sizeof *right_buf || !right_len) return JETUKOMA_REFUSED;
    return jetukoma_bytes_bytes_pair_at_rank_unchecked(handle, rank, left_buf, left_buf_len, left_len, right_buf, right_buf_len, right_len);
}

/* Writes how many lefts are less than this one, compared byte by byte. This one need not be contained. Returns 6 if
 * the table is not ordered. */
uint32_t jetukoma_bytes_bytes_left_rank_unchecked(jetukoma_bytes_bytes *handle, const uint8_t *left, size_t left_len, size_t *rank);
JETUKOMA_API uint32_t jetukoma_bytes_bytes_left_rank(jetukoma_bytes_bytes *handle, const uint8_t *left, size_t left_len, size_t *rank) {
    if (!handle) return JETUKOMA_NO_TABLE;
    if (!left || left_len > PTRDIFF_MAX / sizeof *left || !rank) return JETUKOMA_REFUSED;
    return jetukoma_bytes_bytes_left_rank_unchecked(handle, left, left_len, rank);
}

/* Writes how many rights are less than this one, compared byte by byte. This one need not be contained. Returns 6 if
 * the table is not ordered. */
uint32_t jetukoma_bytes_bytes_right_rank_unchecked(jetukoma_bytes_bytes *handle, const uint8_t *right, size_t right_len, size_t *rank);
JETUKOMA_API uint32_t jetukoma_bytes_bytes_right_rank(jetukoma_bytes_bytes *handle, const uint8_t *right, size_t right_len, size_t *rank) {
    if (!handle) return JETUKOMA_NO_TABLE;
    if (!right || right_len > PTRDIFF_MAX / sizeof *right || !rank) return JETUKOMA_REFUSED;
    return jetukoma_bytes_bytes_right_rank_unchecked(handle, right, right_len, rank);
}

/* Writes pairs as `fill` does, but in ascending order of their rights. It takes one search, and at most one descent
 * in the tree for each pair. Returns 4 as `fill` does, and 6 if the table is not ordered. */
uint32_t jetukoma_bytes_bytes_fill_by_right_unchecked(jetukoma_bytes_bytes *handle, size_t start, uint8_t *buf, size_t buf_len, jetukoma_bytes_bytes_row *rows, size_t rows_len, size_t *len, size_t *filled);
JETUKOMA_API uint32_t jetukoma_bytes_bytes_fill_by_right(jetukoma_bytes_bytes *handle, size_t start, uint8_t *buf, size_t buf_len, jetukoma_bytes_bytes_row *rows, size_t rows_len, size_t *len, size_t *filled) {
    if (!handle) return JETUKOMA_NO_TABLE;
    if (!buf || buf_len > PTRDIFF_MAX / sizeof *buf || !rows || rows_len > PTRDIFF_MAX / sizeof *rows || !len || !filled) return JETUKOMA_REFUSED;
    return jetukoma_bytes_bytes_fill_by_right_unchecked(handle, start, buf, buf_len, rows, rows_len, len, filled);
}

/* Removes a pair. In an ordered table it is the pair of the least left. In a table in insertion order it is the
 * first pair. The table keeps it, so that `overwritten_left` and `overwritten_right` copy it. Returns 5 if there are
 * no pairs, and 6 if the table is hashed. */
uint32_t jetukoma_bytes_bytes_pop_first_unchecked(jetukoma_bytes_bytes *handle);
JETUKOMA_API uint32_t jetukoma_bytes_bytes_pop_first(jetukoma_bytes_bytes *handle) {
    if (!handle) return JETUKOMA_NO_TABLE;
    return jetukoma_bytes_bytes_pop_first_unchecked(handle);
}

/* Removes a pair. In an ordered table it is the pair of the greatest left. In a table in insertion order it is the
 * last pair. The table keeps it, so that `overwritten_left` and `overwritten_right` copy it. Returns 5 if there are
 * no pairs, and 6 if the table is hashed. */
uint32_t jetukoma_bytes_bytes_pop_last_unchecked(jetukoma_bytes_bytes *handle);
JETUKOMA_API uint32_t jetukoma_bytes_bytes_pop_last(jetukoma_bytes_bytes *handle) {
    if (!handle) return JETUKOMA_NO_TABLE;
    return jetukoma_bytes_bytes_pop_last_unchecked(handle);
}

/* Moves the pair of a left to the front of the insertion order. The other pairs keep their order. Returns 5 if the
 * left is not contained, and 6 if the table is not in insertion order. */
uint32_t jetukoma_bytes_bytes_to_front_unchecked(jetukoma_bytes_bytes *handle, const uint8_t *left, size_t left_len);
JETUKOMA_API uint32_t jetukoma_bytes_bytes_to_front(jetukoma_bytes_bytes *handle, const uint8_t *left, size_t left_len) {
    if (!handle) return JETUKOMA_NO_TABLE;
    if (!left || left_len > PTRDIFF_MAX / sizeof *left) return JETUKOMA_REFUSED;
    return jetukoma_bytes_bytes_to_front_unchecked(handle, left, left_len);
}

/* Moves the pair of a left to the end of the insertion order. The other pairs keep their order. Returns 5 if the
 * left is not contained, and 6 if the table is not in insertion order. */
uint32_t jetukoma_bytes_bytes_to_back_unchecked(jetukoma_bytes_bytes *handle, const uint8_t *left, size_t left_len);
JETUKOMA_API uint32_t jetukoma_bytes_bytes_to_back(jetukoma_bytes_bytes *handle, const uint8_t *left, size_t left_len) {
    if (!handle) return JETUKOMA_NO_TABLE;
    if (!left || left_len > PTRDIFF_MAX / sizeof *left) return JETUKOMA_REFUSED;
    return jetukoma_bytes_bytes_to_back_unchecked(handle, left, left_len);
}

#ifdef __cplusplus
}
#endif
#endif
