/* Tests that the hashes of a table depend on its seed, and that `from_json` keeps the seed.
 *
 * All lefts here fall into one bucket under seed 0, so a table with this seed looks through most of them at each look-up. A table
 * with another seed does not. The hash is that of `Seeded` in crates/bimap_kinds, and `BUCKETS` is for this number of lefts. */
#include <time.h>

enum { LEFTS = 2000, BUCKETS = 8192, NAME = 5 };
static uint64_t numbers[LEFTS];
static uint8_t names[LEFTS][NAME];

__extension__ typedef unsigned __int128 wide;
static uint64_t hash(uint64_t state, uint64_t word, uint64_t bytes) {
    wide product = (wide)(state ^ word) * (UINT64_C(0x9E3779B97F4A7C15) ^ (2 * bytes));
    return (uint64_t)product ^ (uint64_t)(product >> 64);
}
static void find_lefts(void) {
    uint64_t seeded = hash(UINT64_C(0x243F6A8885A308D3), 0, 8);
    for (uint64_t it = 0, found = 0; found < LEFTS; it++) if (hash(seeded, it, 8) % BUCKETS == 0) numbers[found++] = it;
    for (uint64_t it = 0, found = 0; found < LEFTS; it++) {
        uint64_t start = hash(seeded, NAME, 8);
        uint8_t name[NAME];
        for (int at = 0; at < NAME - 1; at++) start = hash(start, (name[at] = (uint8_t)('0' + (it >> 6 * at) % 64)) * 0x10101u, 1);
        for (uint8_t end = '0'; end < '0' + 64 && found < LEFTS; end++)
            if (hash(start, end * 0x10101u, 1) % BUCKETS == 0) name[NAME - 1] = end, memcpy(names[found++], name, NAME);
    }
}

static uint32_t look_up_number(void *table, int at) { return jetukoma_u64_u64_contains_left(table, numbers[at]); }
static uint32_t look_up_name(void *table, int at) { return jetukoma_bytes_u64_contains_left(table, names[at], NAME); }
/* Returns the time in which each left is looked up, which is the least of three. */
static clock_t took(void *table, uint32_t (*look_up)(void *, int)) {
    clock_t least = 0;
    for (int round = 0; round < 3; round++) {
        clock_t start = clock();
        for (int at = 0; at < LEFTS; at++) CHECK(!look_up(table, at));
        clock_t time = clock() - start;
        if (!round || time < least) least = time;
    }
    return least;
}
static void seeds(void) {
    static uint8_t text[LEFTS * 24];
    clock_t of_numbers[2], of_names[2], of_read_names[2];
    size_t len = 0;
    if (!names[0][0]) find_lefts();
    for (uint64_t seed = 0; seed < 2; seed++) {
        jetukoma_u64_u64 t = {0};
        jetukoma_bytes_u64 u = {0};
        CHECK(!jetukoma_u64_u64_new(&t, table_kind, seed) && !jetukoma_bytes_u64_new(&u, table_kind, seed));
        for (int at = 0; at < LEFTS; at++) {
            CHECK(!jetukoma_u64_u64_insert_no_overwrite(&t, numbers[at], (uint64_t)at));
            CHECK(!jetukoma_bytes_u64_insert_no_overwrite(&u, names[at], NAME, (uint64_t)at));
        }
        of_numbers[seed] = took(&t, look_up_number), of_names[seed] = took(&u, look_up_name);
        CHECK(!jetukoma_bytes_u64_to_json(&u, text, sizeof text, &len) && !jetukoma_bytes_u64_from_json(&u, text, len));
        of_read_names[seed] = took(&u, look_up_name);
        CHECK(!jetukoma_u64_u64_free(&t) && !jetukoma_bytes_u64_free(&u) && blocks == 0);
    }
    CHECK(of_numbers[0] > 5 * of_numbers[1]);
    CHECK(of_names[0] > 5 * of_names[1]);
    CHECK(of_read_names[0] > 5 * of_read_names[1]);
}
