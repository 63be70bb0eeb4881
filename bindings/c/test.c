/* Tests each call of jetukoma.h on each kind of table, with each pair of sides.
 *
 * - It tests every status, null pointers, lengths of 0, lengths that exceed the memory, bad flags and unknown kinds. It tests a
 *   table that is freed twice and used after that.
 * - It makes random calls beside a model. The first argument is their number for each kind and pair of sides, by default 100,000.
 * - It writes and reads a JSON object with a pair for every ten of these calls.
 * - It refuses each allocation once.
 * - It looks up values that collide under one seed.
 *
 *     cc -std=c11 -Wl,--wrap=malloc,--wrap=realloc,--wrap=free bindings/c/test.c out/lib/libjetukoma.a -o test
 */
#include "jetukoma.h"
#include <stdio.h>
#include <stdlib.h>
#include <string.h>

static int failed, tests_passed, tests_failed;
static long calls = 100000;
/* The kind of the tables in a test. */
static uint32_t table_kind;
static const char *const kinds[] = {"ordered", "hashed", "in insertion order"};
enum { KINDS = sizeof kinds / sizeof *kinds };
#define CHECK(it) ((it) ? 0 : (failed++, printf("%s:%d: %s\n", __FILE__, __LINE__, #it)))

static void test(const char *sides, const char *name, void (*run)(void)) {
    failed = 0;
    run();
    if (failed) tests_failed++, printf("%s, %s: %s failed\n", sides, kinds[table_kind], name);
    else tests_passed++;
}

/* The memory of the program. `granted` allocations succeed, and `blocks` are in use. */
static size_t granted = SIZE_MAX, blocks;
void *__real_malloc(size_t);
void *__real_realloc(void *, size_t);
void __real_free(void *);
void *__wrap_malloc(size_t bytes) {
    void *it = granted && granted-- ? __real_malloc(bytes) : NULL;
    return blocks += it != NULL, it;
}
void *__wrap_realloc(void *old, size_t bytes) {
    void *it = granted && granted-- ? __real_realloc(old, bytes) : NULL;
    return blocks += it && !old, it;
}
void __wrap_free(void *it) { blocks -= it != NULL, __real_free(it); }

/* Values are numbered from 0 to MANY - 1. As u64 they are scattered. As bytes, number n has n bytes, and number 0 is empty. */
enum { MANY = 40, NONE = -1, STRANGE = -2 };
static uint64_t number(int value) { return value * UINT64_C(0x9E3779B97F4A7C15); }
static int of_number(uint64_t it) {
    for (int value = 0; value < MANY; value++) if (number(value) == it) return value;
    return STRANGE;
}
static const uint8_t *bytes(int value) {
    static uint8_t all[MANY][MANY];
    for (int at = 0; at < value; at++) all[value][at] = (uint8_t)(value * 5 * (at % 3));
    return all[value];
}
static int of_bytes(const uint8_t *it, size_t len) { return len < MANY && !memcmp(it, bytes((int)len), len) ? (int)len : STRANGE; }
static int below_bytes(int a, int b) {
    int order = memcmp(bytes(a), bytes(b), a < b ? a : b);
    return order ? order < 0 : a < b;
}

/* The model, what an insertion writes, and what the last call that changed something overwrote or removed. */
struct pair { int left, right; };
struct told { uint32_t kind; struct pair first, second; };
static const struct pair no_pair = {NONE, NONE};
static int right_of[MANY], left_of[MANY], held;
/* The position of each left in insertion order, the position of the next pair, and that of the pair that was moved to the front. */
static long position_of[MANY], next_position, front_position;
static struct told last;

static void empty_model(void) {
    for (int it = 0; it < MANY; it++) right_of[it] = left_of[it] = NONE;
    held = 0, last = (struct told){0, no_pair, no_pair};
}
static struct pair model_remove(int left) {
    struct pair it = {left, left < 0 ? NONE : right_of[left]};
    if (it.right == NONE) return no_pair;
    right_of[left] = left_of[it.right] = NONE;
    held--, last = (struct told){0, it, no_pair};
    return it;
}
static uint32_t model_insert(int left, int right, int left_refuses, int right_refuses, struct told *told) {
    int has_left = right_of[left] != NONE, has_right = left_of[right] != NONE;
    if ((left_refuses && has_left) || (right_refuses && has_right)) return JETUKOMA_REFUSED;
    told->kind = has_left && has_right ? (right_of[left] == right ? 3 : 4) : has_left ? 1 : has_right ? 2 : 0;
    told->first = model_remove(has_left ? left : left_of[right]);
    told->second = model_remove(left_of[right]);
    /* An insertion that overwrites the pair of its left keeps the position of that pair. */
    if (!has_left) position_of[left] = next_position++;
    right_of[left] = right, left_of[right] = left, held++, last = *told;
    return JETUKOMA_DONE;
}
static uint32_t model_move(int left, int to_front) {
    if (table_kind != JETUKOMA_INSERTION_ORDER) return JETUKOMA_NO_ORDER;
    if (right_of[left] == NONE) return JETUKOMA_NOT_FOUND;
    position_of[left] = to_front ? --front_position : next_position++;
    return JETUKOMA_DONE;
}
static int same_pair(struct pair a, struct pair b) { return a.left == b.left && a.right == b.right; }
static int same_told(struct told a, struct told b) {
    return a.kind == b.kind && same_pair(a.first, b.first) && same_pair(a.second, b.second);
}
static int chance(int below) {
    static uint64_t state = 1;
    state = state * UINT64_C(6364136223846793005) + UINT64_C(1442695040888963407);
    return (int)((state >> 33) % (uint64_t)below);
}

#define PASTE(sides, call) jetukoma_##sides##_##call
#define NAME(sides, call) PASTE(sides, call)
#define PASTE_TYPE(sides) jetukoma_##sides
#define TYPE(sides) PASTE_TYPE(sides)
#define PASTE_OURS(sides, name) sides##_##name
#define JOIN(sides, name) PASTE_OURS(sides, name)
#define TEXT_OF(it) #it
#define TEXT(it) TEXT_OF(it)

#include "test_numbers.h"
#define RIGHT_IS_BYTES 0
#include "test_bytes.h"
#define RIGHT_IS_BYTES 1
#include "test_bytes.h"
#include "test_seeds.h"

/* For every call but `free`, a handle with a table of other sides has no table. */
static void of_other_sides(void) {
    jetukoma_bytes_u64 t = {0};
    jetukoma_u64_u64_pair pair;
    void *it = &t;
    size_t n = 99;
    uint64_t number = 99;
    CHECK(!jetukoma_bytes_u64_new(&t, table_kind, 1) && !jetukoma_bytes_u64_insert_no_overwrite(&t, bytes(3), 3, 7));
    CHECK(jetukoma_bytes_bytes_len(it, &n) == JETUKOMA_NO_TABLE && jetukoma_u64_u64_len(it, &n) == JETUKOMA_NO_TABLE && n == 99);
    CHECK(jetukoma_u64_u64_new(it, table_kind, 1) == JETUKOMA_NO_TABLE && jetukoma_u64_u64_reserve(it, 1) == JETUKOMA_NO_TABLE);
    CHECK(jetukoma_u64_u64_clear(it) == JETUKOMA_NO_TABLE && jetukoma_bytes_bytes_clear(it) == JETUKOMA_NO_TABLE);
    CHECK(jetukoma_u64_u64_insert_no_overwrite(it, 4, 8) == JETUKOMA_NO_TABLE);
    CHECK(jetukoma_u64_u64_get_by_left(it, 4, &number) == JETUKOMA_NO_TABLE && number == 99);
    CHECK(jetukoma_u64_u64_pop_first(it, &pair) == JETUKOMA_NO_TABLE && jetukoma_bytes_bytes_pop_last(it) == JETUKOMA_NO_TABLE);
    jetukoma_bytes_bytes_row row;
    uint8_t buf[9];
    CHECK(jetukoma_bytes_bytes_fill(it, 0, buf, 9, &row, 1, &n, &n) == JETUKOMA_NO_TABLE && n == 99);
    CHECK(jetukoma_bytes_bytes_insert_many(it, buf, 9, &row, 0, &n) == JETUKOMA_NO_TABLE && n == 99);
    CHECK(jetukoma_u64_u64_to_front(it, 4) == JETUKOMA_NO_TABLE && jetukoma_u64_u64_shrink_to(it, 0) == JETUKOMA_NO_TABLE);
    CHECK(jetukoma_u64_u64_right_rank(it, 4, &n) == JETUKOMA_NO_TABLE && n == 99);
    jetukoma_bytes_bytes other = {0};
    CHECK(jetukoma_bytes_bytes_clone(it, &other) == JETUKOMA_NO_TABLE && !other.live && !jetukoma_bytes_bytes_new(&other, table_kind, 1));
    CHECK(jetukoma_bytes_bytes_equals(&other, it) == JETUKOMA_NO_TABLE && jetukoma_bytes_bytes_equals(it, it) == JETUKOMA_NO_TABLE);
    CHECK(jetukoma_bytes_bytes_is_subset(&other, it) == JETUKOMA_NO_TABLE && jetukoma_bytes_bytes_is_subset(it, &other) == JETUKOMA_NO_TABLE);
    CHECK(!jetukoma_bytes_bytes_free(&other));
    CHECK(!jetukoma_bytes_u64_get_by_left(&t, bytes(3), 3, &number) && number == 7 && !jetukoma_bytes_u64_len(&t, &n) && n == 1);
    CHECK(!jetukoma_u64_u64_free(it) && jetukoma_bytes_u64_free(&t) == JETUKOMA_NO_TABLE && blocks == 0);
}

static void version(void) { CHECK(!strcmp(jetukoma_version(), JETUKOMA_VERSION)); }

int main(int count, char **words) {
    if (count > 1) calls = atol(words[1]);
    test("the library", "version of the header", version);
    for (table_kind = 0; table_kind < KINDS; table_kind++) {
        u64_u64_tests();
        bytes_u64_tests();
        bytes_bytes_tests();
        test("a table", "of other sides", of_other_sides);
        if (table_kind != JETUKOMA_ORDERED) test("tables", "seeds", seeds);
    }
    printf("%d passed, %d failed\n", tests_passed, tests_failed);
    return tests_failed != 0;
}
