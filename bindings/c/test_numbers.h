/* The calls that test_calls.h makes, for maps of two numbers. They take the numbers of values. */
#define SIDES u64_u64
#define BYTES 0
#define CALL(it) NAME(SIDES, it)
#define OUR(it) JOIN(SIDES, it)
typedef TYPE(SIDES) OUR(table);
#define LEFT(it) number(it)
#define RIGHT(it) number(it)

static struct pair OUR(named)(jetukoma_u64_u64_pair it) { return (struct pair){of_number(it.left), of_number(it.right)}; }
static struct told OUR(told)(jetukoma_u64_u64_overwritten it) {
    struct told told = {it.kind, it.kind > 0 ? OUR(named)(it.first) : no_pair, it.kind > 3 ? OUR(named)(it.second) : no_pair};
    return told;
}
static uint32_t OUR(insert)(OUR(table) *table, int left, int right, struct told *told) {
    jetukoma_u64_u64_overwritten it;
    uint32_t status = CALL(insert)(table, number(left), number(right), &it);
    return status ? status : (*told = OUR(told)(it), 0);
}
static uint32_t OUR(insert_with)(OUR(table) *table, int left, int right, uint8_t l, uint8_t r, struct told *told) {
    jetukoma_u64_u64_overwritten it;
    uint32_t status = CALL(insert_with)(table, number(left), number(right), l, r, &it);
    return status ? status : (*told = OUR(told)(it), 0);
}
static uint32_t OUR(get_by_left)(OUR(table) *table, int left, int *right) {
    uint64_t it;
    uint32_t status = CALL(get_by_left)(table, number(left), &it);
    return status ? status : (*right = of_number(it), 0);
}
static uint32_t OUR(get_by_right)(OUR(table) *table, int right, int *left) {
    uint64_t it;
    uint32_t status = CALL(get_by_right)(table, number(right), &it);
    return status ? status : (*left = of_number(it), 0);
}
static uint32_t OUR(remove_by_left)(OUR(table) *table, int left, struct pair *pair) {
    jetukoma_u64_u64_pair it;
    uint32_t status = CALL(remove_by_left)(table, number(left), &it);
    return status ? status : (*pair = OUR(named)(it), 0);
}
static uint32_t OUR(remove_by_right)(OUR(table) *table, int right, struct pair *pair) {
    jetukoma_u64_u64_pair it;
    uint32_t status = CALL(remove_by_right)(table, number(right), &it);
    return status ? status : (*pair = OUR(named)(it), 0);
}
static uint32_t OUR(insert_many)(OUR(table) *table, const struct pair *pairs, size_t count, size_t *taken) {
    jetukoma_u64_u64_pair row[MANY];
    for (size_t at = 0; at < count; at++) row[at].left = number(pairs[at].left), row[at].right = number(pairs[at].right);
    return CALL(insert_many)(table, row, count, taken);
}
static int OUR(below_right)(int a, int b) { return number(a) < number(b); }
/* Reads the pairs from a rank of the rights on. The number of rows is random. Returns how many it read. */
static size_t OUR(few_by_right)(OUR(table) *table, size_t start, struct pair *pairs) {
    jetukoma_u64_u64_pair row[5];
    size_t most = (size_t)chance(4) + 1, filled = 99;
    memset(row, 77, sizeof row);
    CHECK(!CALL(fill_by_right)(table, start, row, most, &filled) && filled <= most);
    for (size_t at = 0; at < 5; at++)
        if (at < filled) pairs[at] = OUR(named)(row[at]);
        else CHECK(row[at].left == UINT64_C(0x4D4D4D4D4D4D4D4D) && row[at].right == row[at].left);
    return filled;
}
static uint32_t OUR(walk)(OUR(table) *table, struct pair *row, size_t *count) {
    jetukoma_u64_u64_pair its[MANY + 1], from[MANY + 1];
    uint32_t status = CALL(fill)(table, 0, its, MANY + 1, count);
    if (status) return status;
    for (size_t at = 0; at < *count; at++) row[at] = OUR(named)(its[at]);
    /* `fill` from a random start gives the same pairs from there on. */
    size_t start = *count ? (size_t)chance((int)*count) : 3, filled, rank = 99;
    CHECK(!CALL(fill)(table, start, from, MANY + 1, &filled) && filled == (start < *count ? *count - start : 0));
    CHECK(!filled || !memcmp(from, its + start, filled * sizeof *its));
    /* `fill_back` gives them from the end. */
    size_t turned = 99, left_out = (size_t)chance(3);
    uint32_t endless = table_kind == JETUKOMA_HASHED ? JETUKOMA_NO_ORDER : 0;
    CHECK(CALL(fill_back)(table, left_out, from, MANY, &turned) == endless);
    CHECK(turned == (endless ? 99 : left_out < *count ? *count - left_out : 0));
    for (size_t at = 0; !endless && at < turned; at++) CHECK(!memcmp(from + at, its + *count - 1 - left_out - at, sizeof *its));
    CHECK(!CALL(fill)(table, start, from, MANY + 1, &filled));
    if (table_kind != JETUKOMA_ORDERED) {
        CHECK(CALL(left_rank)(table, 0, &rank) == JETUKOMA_NO_ORDER && rank == 99);
        CHECK(CALL(fill_from)(table, 0, its, 2, &rank) == JETUKOMA_NO_ORDER && rank == 99);
        CHECK(!filled || !memcmp(from, its + start, filled * sizeof *its));
    } else if (*count) {
        CHECK(!CALL(left_rank)(table, its[start].left, &rank) && rank == start);
        CHECK(!CALL(left_rank)(table, its[start].left + 1, &rank) && rank == start + 1);
        CHECK(!CALL(fill_from)(table, its[start].left, from, 2, &filled) && filled == (start + 1 < *count ? 2 : 1));
        CHECK(!memcmp(from, its + start, filled * sizeof *its));
    }
    return 0;
}
static int OUR(below)(int a, int b) { return number(a) < number(b); }
static uint32_t OUR(pop)(OUR(table) *table, int first, struct pair *pair) {
    jetukoma_u64_u64_pair it = {99, 99};
    uint32_t status = first ? CALL(pop_first)(table, &it) : CALL(pop_last)(table, &it);
    if (status) return CHECK(it.left == 99 && it.right == 99), status;
    return *pair = OUR(named)(it), 0;
}
/* Removes pairs by a test, as the header shows. */
static int OUR(keeps)(jetukoma_u64_u64_pair it) { return it.left % 3 == 0; }
static void OUR(retain)(void) {
    OUR(table) t = {0};
    size_t n, taken;
    jetukoma_u64_u64_pair row[64], one;
    CHECK(!CALL(new)(&t, table_kind, 3));
    for (uint64_t left = 0; left < 1000; left++) one.left = left, one.right = left * 7, CHECK(!CALL(insert_many)(&t, &one, 1, &taken) && taken == 1);
    for (size_t at = 0, count; !CALL(fill)(&t, at, row, 64, &count) && count;) {
        for (size_t i = 0; i < count; i++)
            if (OUR(keeps)(row[i])) at++;
            else CALL(remove_by_left)(&t, row[i].left, &row[i]);
    }
    CHECK(!CALL(len)(&t, &n) && n == 334);
    for (uint64_t left = 0; left < 1000; left++) CHECK(CALL(contains_left)(&t, left) == (left % 3 ? JETUKOMA_NOT_FOUND : 0));
    CHECK(!CALL(free)(&t) && blocks == 0);
}
/* Tests the calls of this type alone: on a table, on a handle without one, and on null. */
static void OUR(own)(OUR(table) *table, uint32_t status) {
    jetukoma_u64_u64_pair row[3] = {{7, 7}, {8, 8}, {7, 9}};
    uint32_t ordered = !status && table_kind != JETUKOMA_ORDERED ? JETUKOMA_NO_ORDER : status;
    size_t n = 99, rank = 99;
    CHECK(CALL(fill)(table, 0, row, 0, &n) == status && n == (status ? 99 : 0));
    CHECK(CALL(insert_many)(table, row, 0, &n) == status && n == (status ? 99 : 0));
    CHECK(CALL(insert_many)(table, row, 3, &n) == status && n == (status ? 99 : 3));
    memset(row, 0, sizeof row);
    CHECK(CALL(fill)(table, 1, row, 3, &n) == status && n == (status ? 99 : 1));
    CHECK(row[0].left == (status ? 0 : 8) || (table_kind == JETUKOMA_HASHED && row[0].left == 7));
    n = 99, memset(row, 0, sizeof row);
    CHECK(CALL(fill_from)(table, 0, row, 3, &n) == ordered && n == (ordered ? 99 : 2));
    CHECK(ordered ? !row[0].left : row[0].left == 7 && row[0].right == 9 && row[1].left == 8 && row[1].right == 8);
    CHECK(CALL(fill_from)(table, 9, row, 3, &n) == ordered && n == (ordered ? 99 : 0));
    CHECK(CALL(left_rank)(table, 8, &rank) == ordered && rank == (ordered ? 99 : 1));
    uint32_t endless = !status && table_kind == JETUKOMA_HASHED ? JETUKOMA_NO_ORDER : status;
    n = rank = 99, memset(row, 0, sizeof row);
    CHECK(CALL(right_rank)(table, 9, &rank) == ordered && rank == (ordered ? 99 : 1));
    CHECK(CALL(fill_by_right)(table, 0, row, 3, &n) == ordered && n == (ordered ? 99 : 2));
    CHECK(ordered ? !row[0].left : row[0].left == 8 && row[0].right == 8 && row[1].left == 7 && row[1].right == 9);
    CHECK(CALL(fill_by_right)(table, SIZE_MAX, row, 3, &n) == ordered && n == (ordered ? 99 : 0));
    n = 99, memset(row, 0, sizeof row);
    CHECK(CALL(fill_back)(table, 1, row, 3, &n) == endless && n == (endless ? 99 : 1) && row[0].left == (endless ? 0 : 7) && !row[1].left);
}
static void OUR(nulls)(OUR(table) *table, uint32_t null, uint32_t beyond) {
    jetukoma_u64_u64_pair row[1];
    size_t n;
    CHECK(CALL(insert)(table, 1, 1, NULL) == null && CALL(insert_with)(table, 1, 1, 0, 0, NULL) == null);
    CHECK(CALL(get_by_left)(table, 1, NULL) == null && CALL(get_by_right)(table, 1, NULL) == null);
    CHECK(CALL(remove_by_left)(table, 1, NULL) == null && CALL(remove_by_right)(table, 1, NULL) == null);
    CHECK(CALL(insert_many)(table, NULL, 0, &n) == null && CALL(insert_many)(table, row, 0, NULL) == null);
    CHECK(CALL(fill)(table, 0, NULL, 0, &n) == null && CALL(fill)(table, 0, row, 1, NULL) == null);
    CHECK(CALL(insert_many)(table, row, SIZE_MAX, &n) == beyond && CALL(insert_many)(table, row, SIZE_MAX / 16, &n) == beyond);
    CHECK(CALL(fill)(table, 0, row, SIZE_MAX, &n) == beyond && CALL(fill)(table, 0, row, SIZE_MAX / 16, &n) == beyond);
    CHECK(CALL(fill_back)(table, 0, NULL, 0, &n) == null && CALL(fill_back)(table, 0, row, 1, NULL) == null && CALL(fill_back)(table, 0, row, SIZE_MAX / 16, &n) == beyond);
    CHECK(CALL(fill_from)(table, 0, NULL, 0, &n) == null && CALL(fill_from)(table, 0, row, 1, NULL) == null);
    CHECK(CALL(fill_from)(table, 0, row, SIZE_MAX / 16, &n) == beyond && CALL(left_rank)(table, 0, NULL) == null);
    CHECK(CALL(pop_first)(table, NULL) == null && CALL(pop_last)(table, NULL) == null && CALL(right_rank)(table, 0, NULL) == null);
    CHECK(CALL(fill_by_right)(table, 0, NULL, 0, &n) == null && CALL(fill_by_right)(table, 0, row, 1, NULL) == null);
    CHECK(CALL(fill_by_right)(table, 0, row, SIZE_MAX / 16, &n) == beyond);
}

#include "test_calls.h"
