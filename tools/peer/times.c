/* Makes the calls of crates/tool_bench on a table of numbers, through the static library, and prints the same lines.
 *
 *     times PAIRS KIND
 *
 * KIND is BiBTreeMap or BiHashMap. All pairs are read into one row. */
#include "jetukoma.h"
#include <stdio.h>
#include <stdlib.h>
#include <string.h>
#include <time.h>

static uint64_t pairs, step;
static const char *kind;
static jetukoma_u64_u64 table;

static uint64_t left_of(uint64_t number) { return number * UINT64_C(0x9E3779B97F4A7C15); }
static uint64_t right_of(uint64_t number) { return number * UINT64_C(0xD1B54A32D192ED03); }
static uint64_t after(uint64_t number) { return (number += step) < pairs ? number : number - pairs; }

static uint64_t insert(uint64_t apart) {
    uint64_t struck = 0;
    jetukoma_u64_u64_overwritten it;
    for (uint64_t number = 0; number < pairs; number++) {
        if (jetukoma_u64_u64_insert(&table, left_of(number), right_of(number + apart), &it)) exit(1);
        struck += it.kind != 0;
    }
    return struck;
}
static uint64_t by_left(uint64_t from) {
    uint64_t found = 0, number = 0, right;
    for (uint64_t i = 0; i < pairs; i++, number = after(number)) found += !jetukoma_u64_u64_get_by_left(&table, left_of(number + from), &right);
    return found;
}
static uint64_t by_right(uint64_t from) {
    uint64_t found = 0, number = 0, left;
    for (uint64_t i = 0; i < pairs; i++, number = after(number)) found += !jetukoma_u64_u64_get_by_right(&table, right_of(number + from), &left);
    return found;
}
static uint64_t walk(uint64_t back) {
    uint64_t sum = 0;
    size_t filled;
    jetukoma_u64_u64_pair *row = malloc(pairs * sizeof *row);
    if (!row || (back ? jetukoma_u64_u64_fill_back : jetukoma_u64_u64_fill)(&table, 0, row, pairs, &filled)) exit(1);
    for (size_t at = 0; at < filled; at++) sum += row[at].left ^ row[at].right;
    free(row);
    return sum;
}
static uint64_t removals(uint64_t from) {
    uint64_t removed = 0, number = from;
    jetukoma_u64_u64_pair pair;
    for (uint64_t i = 0; i < pairs; i++, number = after(number)) removed += !jetukoma_u64_u64_remove_by_left(&table, left_of(number), &pair);
    return removed;
}
static void measure(const char *call, uint64_t (*made)(uint64_t), uint64_t with) {
    struct timespec start, end;
    timespec_get(&start, TIME_UTC);
    uint64_t found = made(with);
    timespec_get(&end, TIME_UTC);
    double nanos = (double)(end.tv_sec - start.tv_sec) * 1e9 + (double)(end.tv_nsec - start.tv_nsec);
    printf("%s %s %.1f %llu\n", kind, call, nanos / (double)pairs, (unsigned long long)found);
}

int main(int words, char **word) {
    if (words != 3 || !(pairs = strtoull(word[1], NULL, 10))) return 2;
    kind = word[2], step = (pairs % 7919 ? 7919 : 7907) % pairs;
    int is_ordered = !strcmp(kind, "BiBTreeMap");
    if (jetukoma_u64_u64_new(&table, is_ordered ? JETUKOMA_ORDERED : JETUKOMA_HASHED, 0)) return 1;
    measure("insert", insert, 0);
    measure("hit-by-left", by_left, 0);
    measure("hit-by-right", by_right, 0);
    measure("miss-by-left", by_left, pairs);
    measure("same-pair", insert, 0);
    measure("overwrite", insert, pairs);
    measure("walk", walk, 0);
    if (is_ordered) measure("walk-back", walk, 1);
    measure("remove", removals, 0);
    return (int)jetukoma_u64_u64_free(&table);
}
