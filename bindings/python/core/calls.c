/* The calls of the three tables of libjetukoma, with the same arguments for each. */
#include "core.h"

#define IN_u64(it) (it)->word
#define IN_bytes(it) (it)->bytes, (it)->word
#define OUT_u64(it) &(it)->word
#define OUT_bytes(it) (it)->bytes, (it)->room, &(it)->word

/* Where an insertion writes what it overwrote. A table with bytes writes the kind alone. */
typedef union { uint32_t kind; jetukoma_u64_u64_overwritten overwritten; } Told;
#define TOLD_u64_u64 &told.overwritten
#define TOLD_bytes_u64 &told.kind
#define TOLD_bytes_bytes &told.kind
#define GONE_u64_u64 , &(jetukoma_u64_u64_pair){0, 0}
#define GONE_bytes_u64
#define GONE_bytes_bytes

/* The free part of the rows, and where `fill` writes how many pairs and bytes there are. */
#define FREE_WORDS(T) (T *)(rows->words + 2 * rows->count), count
#define FREE_BYTES rows->bytes + rows->used, rows->space - rows->used
#define FREE_u64_u64 FREE_WORDS(jetukoma_u64_u64_pair), (*used = 0, filled)
#define FREE_bytes_u64 FREE_BYTES, FREE_WORDS(jetukoma_bytes_u64_row), used, filled
#define FREE_bytes_bytes FREE_BYTES, FREE_WORDS(jetukoma_bytes_bytes_row), used, filled

#define CALL(name, ...) static uint32_t name(Handle *it __VA_OPT__(,) __VA_ARGS__)
#define FILL size_t start, Rows *rows, size_t count, size_t *filled, size_t *used
#define CALLS(T, L, R)                                                                                                  \
    CALL(T##_make, uint32_t kind, uint64_t seed) { return jetukoma_##T##_new(&it->T, kind, seed); }                     \
    CALL(T##_free) { return jetukoma_##T##_free(&it->T); }                                                              \
    CALL(T##_len, size_t *len) { return jetukoma_##T##_len(&it->T, len); }                                              \
    CALL(T##_reserve, size_t more) { return jetukoma_##T##_reserve(&it->T, more); }                                     \
    CALL(T##_clear) { return jetukoma_##T##_clear(&it->T); }                                                            \
    CALL(T##_clone, Handle *copy) { return jetukoma_##T##_clone(&it->T, &copy->T); }                                    \
    CALL(T##_equals, Handle *other) { return jetukoma_##T##_equals(&it->T, &other->T); }                                \
    CALL(T##_has_l, const Value *l) { return jetukoma_##T##_contains_left(&it->T, IN_##L(l)); }                         \
    CALL(T##_has_r, const Value *r) { return jetukoma_##T##_contains_right(&it->T, IN_##R(r)); }                        \
    CALL(T##_get_l, const Value *l, Found *r) { return jetukoma_##T##_get_by_left(&it->T, IN_##L(l), OUT_##R(r)); }     \
    CALL(T##_get_r, const Value *r, Found *l) { return jetukoma_##T##_get_by_right(&it->T, IN_##R(r), OUT_##L(l)); }    \
    CALL(T##_remove_l, const Value *l) { return jetukoma_##T##_remove_by_left(&it->T, IN_##L(l) GONE_##T); }            \
    CALL(T##_remove_r, const Value *r) { return jetukoma_##T##_remove_by_right(&it->T, IN_##R(r) GONE_##T); }           \
    CALL(T##_insert, const Value pair[2], bool l, bool r, uint32_t *kind)                                               \
    {                                                                                                                   \
        Told told = {0};                                                                                                \
        uint32_t status = jetukoma_##T##_insert_with(&it->T, IN_##L(pair), IN_##R(pair + 1), l, r, TOLD_##T);           \
        *kind = told.kind;                                                                                              \
        return status;                                                                                                  \
    }                                                                                                                   \
    CALL(T##_fill, FILL) { return jetukoma_##T##_fill(&it->T, start, FREE_##T); }                                       \
    CALL(T##_fill_back, FILL) { return jetukoma_##T##_fill_back(&it->T, start, FREE_##T); }                             \
    CALL(T##_rank, const Value *l, size_t *rank) { return jetukoma_##T##_left_rank(&it->T, IN_##L(l), rank); }          \
    CALL(T##_to_front, const Value *l) { return jetukoma_##T##_to_front(&it->T, IN_##L(l)); }                           \
    CALL(T##_to_back, const Value *l) { return jetukoma_##T##_to_back(&it->T, IN_##L(l)); }                             \
    const Calls calls_##T = {                                                                                           \
        T##_make, T##_free, T##_len, T##_reserve, T##_clear, T##_clone, T##_equals, {T##_has_l, T##_has_r},             \
        {T##_get_l, T##_get_r}, {T##_remove_l, T##_remove_r}, T##_insert, {T##_fill, T##_fill_back}, T##_rank,          \
        {T##_to_front, T##_to_back},                                                                                    \
    };

CALLS(u64_u64, u64, u64)
CALLS(bytes_u64, bytes, u64)
CALLS(bytes_bytes, bytes, bytes)
