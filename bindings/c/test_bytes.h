/* The calls that test_calls.h makes, for maps with byte strings on the left, and with numbers or byte strings on the right. */
#define BYTES 1
#define LEFT(it) bytes(it), (size_t)(it)
#if RIGHT_IS_BYTES
#define SIDES bytes_bytes
#define RIGHT(it) bytes(it), (size_t)(it)
#define RIGHT_OUT(it) it.bytes, sizeof it.bytes, &it.len
#define OF_RIGHT(it) of_bytes(it.bytes, it.len)
#else
#define SIDES bytes_u64
#define RIGHT(it) number(it)
#define RIGHT_OUT(it) &it.number
#define OF_RIGHT(it) of_number(it.number)
#endif
#define CALL(it) NAME(SIDES, it)
#define OUR(it) JOIN(SIDES, it)
typedef TYPE(SIDES) OUR(table);
typedef struct { uint8_t bytes[MANY]; size_t len; uint64_t number; } OUR(out);

/* The pair that the last call removed or overwrote. */
static struct pair OUR(gone)(OUR(table) *table, size_t index) {
    OUR(out) left, right;
    size_t len = 0;
    uint32_t status = CALL(overwritten_left)(table, index, left.bytes, sizeof left.bytes, &left.len);
    CHECK(status == CALL(overwritten_right)(table, index, RIGHT_OUT(right)));
    if (status) return CHECK(status == JETUKOMA_NOT_FOUND), no_pair;
    if (left.len) CHECK(CALL(overwritten_left)(table, index, left.bytes, left.len - 1, &len) == JETUKOMA_BUFFER_TOO_SHORT && len == left.len);
    return (struct pair){of_bytes(left.bytes, left.len), OF_RIGHT(right)};
}
static uint32_t OUR(told)(OUR(table) *table, uint32_t status, uint32_t kind, struct told *told) {
    return status ? status : (*told = (struct told){kind, OUR(gone)(table, 0), OUR(gone)(table, 1)}, 0);
}
static uint32_t OUR(insert)(OUR(table) *table, int left, int right, struct told *told) {
    uint32_t kind = 0, status = CALL(insert)(table, LEFT(left), RIGHT(right), &kind);
    return OUR(told)(table, status, kind, told);
}
static uint32_t OUR(insert_with)(OUR(table) *table, int left, int right, uint8_t l, uint8_t r, struct told *told) {
    uint32_t kind = 0, status = CALL(insert_with)(table, LEFT(left), RIGHT(right), l, r, &kind);
    return OUR(told)(table, status, kind, told);
}
static uint32_t OUR(get_by_left)(OUR(table) *table, int left, int *right) {
    OUR(out) it;
    uint32_t status = CALL(get_by_left)(table, LEFT(left), RIGHT_OUT(it));
    return status ? status : (*right = OF_RIGHT(it), 0);
}
static uint32_t OUR(get_by_right)(OUR(table) *table, int right, int *left) {
    OUR(out) it;
    memset(it.bytes, 77, MANY);
    uint32_t status = CALL(get_by_right)(table, RIGHT(right), it.bytes, MANY, &it.len);
    if (status) return status;
    for (size_t at = it.len; at < MANY; at++) CHECK(it.bytes[at] == 77);
    size_t len = 99;
    if (it.len) CHECK(CALL(get_by_right)(table, RIGHT(right), it.bytes, it.len - 1, &len) == JETUKOMA_BUFFER_TOO_SHORT && len == it.len);
    CHECK(!CALL(get_by_right)(table, RIGHT(right), it.bytes, it.len, &len) && len == it.len);
    return *left = of_bytes(it.bytes, it.len), 0;
}
static uint32_t OUR(remove_by_left)(OUR(table) *table, int left, struct pair *pair) {
    uint32_t status = CALL(remove_by_left)(table, LEFT(left));
    return status ? status : (*pair = OUR(gone)(table, 0), 0);
}
static uint32_t OUR(remove_by_right)(OUR(table) *table, int right, struct pair *pair) {
    uint32_t status = CALL(remove_by_right)(table, RIGHT(right));
    return status ? status : (*pair = OUR(gone)(table, 0), 0);
}
static int OUR(below)(int a, int b) { return below_bytes(a, b); }
static uint32_t OUR(pop)(OUR(table) *table, int first, struct pair *pair) {
    uint32_t status = first ? CALL(pop_first)(table) : CALL(pop_last)(table);
    return status ? status : (*pair = OUR(gone)(table, 0), 0);
}
/* The pair of a row, whose bytes begin here. */
static struct pair OUR(unpacked)(NAME(SIDES, row) it, const uint8_t *packed) {
#if RIGHT_IS_BYTES
    return (struct pair){of_bytes(packed, it.left_len), of_bytes(packed + it.left_len, it.right_len)};
#else
    return (struct pair){of_bytes(packed, it.left_len), of_number(it.right)};
#endif
}
static size_t OUR(size)(struct pair it) { return (size_t)(it.left + (RIGHT_IS_BYTES ? it.right : 0)); }
static void OUR(is)(const void *it, uint8_t byte, size_t bytes) {
    for (size_t at = 0; at < bytes; at++) CHECK(((const uint8_t *)it)[at] == byte);
}
typedef uint32_t OUR(filler)(OUR(table) *, size_t, uint8_t *, size_t, NAME(SIDES, row) *, size_t, size_t *, size_t *);
/* Reads the pairs from a position on, by one of the calls that fill rows. The number of rows and the length of the buffer are
 * random. Returns how many it read. */
static size_t OUR(few)(OUR(table) *table, OUR(filler) *fill, size_t start, struct pair *pairs) {
    enum { ROWS = 4, ROOM = 3 * MANY };
    NAME(SIDES, row) rows[ROWS];
    uint8_t buf[ROOM];
    size_t most = (size_t)chance(ROWS) + 1, room = (size_t)chance(ROOM + 1), len = 99, filled = 99, used = 0, next = 99;
    memset(rows, 77, sizeof rows), memset(buf, 77, sizeof buf);
    uint32_t status = fill(table, start, buf, room, rows, most, &len, &filled);
    if (status == JETUKOMA_BUFFER_TOO_SHORT) {
        CHECK(filled == 99 && len > room && len <= ROOM);
        OUR(is)(rows, 77, sizeof rows), OUR(is)(buf, 77, sizeof buf);
        size_t exact = len;
        status = fill(table, start, buf, exact, rows, most, &len, &filled);
        CHECK(filled && len == exact), room = exact;
    }
    CHECK(!status && filled <= most && len <= room);
    for (size_t at = 0; at < filled; at++) pairs[at] = OUR(unpacked)(rows[at], buf + used), used += OUR(size)(pairs[at]);
    CHECK(used == len);
    OUR(is)(rows + filled, 77, (ROWS - filled) * sizeof *rows), OUR(is)(buf + len, 77, ROOM - len);
    /* The next pair did not fit, or it had no row. */
    CHECK(!fill(table, start + filled, buf, ROOM, rows, 1, &len, &next) && next <= 1);
    CHECK(filled == most || !next || used + len > room);
    return filled;
}
static size_t OUR(few_by_right)(OUR(table) *table, size_t start, struct pair *pairs) { return OUR(few)(table, CALL(fill_by_right), start, pairs); }
static int OUR(below_right)(int a, int b) { return RIGHT_IS_BYTES ? below_bytes(a, b) : number(a) < number(b); }
static uint32_t OUR(insert_many)(OUR(table) *table, const struct pair *pairs, size_t count, size_t *taken) {
    NAME(SIDES, row) rows[MANY];
    uint8_t buf[2 * MANY * MANY];
    size_t used = 0;
    for (size_t at = 0; at < count; at++) {
        rows[at].left_len = (size_t)pairs[at].left;
        memcpy(buf + used, bytes(pairs[at].left), rows[at].left_len), used += rows[at].left_len;
#if RIGHT_IS_BYTES
        rows[at].right_len = (size_t)pairs[at].right;
        memcpy(buf + used, bytes(pairs[at].right), rows[at].right_len), used += rows[at].right_len;
#else
        rows[at].right = number(pairs[at].right);
#endif
    }
    if (used) CHECK(CALL(insert_many)(table, buf, used - 1, rows, count, taken) == JETUKOMA_REFUSED);
    return CALL(insert_many)(table, buf, used, rows, count, taken);
}
static uint32_t OUR(walk)(OUR(table) *table, struct pair *row, size_t *count) {
    OUR(out) left, right;
    uint32_t status;
    size_t rank = 99, few;
    *count = 0, left.len = 99;
    while (*count <= MANY && (few = OUR(few)(table, CALL(fill), *count, row + *count))) *count += few;
    struct pair back[MANY + 1];
    for (size_t at = 0; table_kind != JETUKOMA_HASHED && at <= *count; at += few) {
        if (!(few = OUR(few)(table, CALL(fill_back), at, back + at))) few = *count + 1 - at, CHECK(at == *count);
        else for (size_t it = at; it < at + few; it++) CHECK(it < *count && same_pair(back[it], row[*count - 1 - it]));
    }
    for (size_t at = 0; table_kind == JETUKOMA_ORDERED && at <= *count; at++) {
        status = CALL(pair_at_rank)(table, at, left.bytes, sizeof left.bytes, &left.len, RIGHT_OUT(right));
        CHECK(status == (at < *count ? 0 : JETUKOMA_NOT_FOUND));
        if (status) break;
        CHECK(same_pair(row[at], (struct pair){of_bytes(left.bytes, left.len), OF_RIGHT(right)}));
        CHECK(!CALL(left_rank)(table, LEFT(row[at].left), &rank) && rank == at);
    }
    if (table_kind == JETUKOMA_ORDERED) return 0;
    CHECK(CALL(pair_at_rank)(table, 0, left.bytes, sizeof left.bytes, &left.len, RIGHT_OUT(right)) == JETUKOMA_NO_ORDER && left.len == 99);
    CHECK(CALL(left_rank)(table, LEFT(1), &rank) == JETUKOMA_NO_ORDER && rank == 99);
    return 0;
}

#if !RIGHT_IS_BYTES
/* Writes JSON and reads it. A refused call must change nothing. */
static void OUR(reads)(OUR(table) *table, const char *text, uint32_t status, const char *written) {
    char out[80];
    size_t len = 0;
    CHECK(CALL(from_json)(table, (const uint8_t *)text, strlen(text)) == status);
    memset(out, 77, sizeof out);
    CHECK(!CALL(to_json)(table, (uint8_t *)out, sizeof out, &len) && len == strlen(written) && !memcmp(out, written, len) && out[len] == 77);
}
static void OUR(json)(void) {
    static const char *const faulty[] = {"", "{", "{}{}", "7", "[]", "null", "{\"a\":1,\"a\":2}", "{\"a\":1,\"\\u0061\":1}", "{\"a\":1,\"b\":1}",
                                         "{\"a\":-1}", "{\"a\":1.5}", "{\"a\":\"1\"}", "{\"a\":null}", "{\"a\":18446744073709551616}", "{\"\xff\":1}"};
    const char *both = "{\"\":18446744073709551615,\"\\n\\\"\":0,\"\xc3\xa9\":1}", *ann = "{\"ann\":12,\"bob\":7}";
    OUR(table) t = {0};
    uint8_t out[80] = {77};
    size_t len = 99, n;
    uint64_t right;
    CHECK(CALL(to_json)(NULL, out, 80, &len) == JETUKOMA_NO_TABLE && CALL(from_json)(NULL, out, 0) == JETUKOMA_NO_TABLE);
    CHECK(CALL(to_json)(&t, out, 80, &len) == JETUKOMA_NO_TABLE && CALL(from_json)(&t, out, 0) == JETUKOMA_NO_TABLE && len == 99);
    CHECK(!CALL(new)(&t, table_kind, 5));
    OUR(reads)(&t, "", JETUKOMA_REFUSED, "{}");
    OUR(reads)(&t, " {\"bob\": 7, \"\\u0061nn\": 12}\n", 0, ann);
    CHECK(!CALL(get_by_left)(&t, (const uint8_t *)"ann", 3, &right) && right == 12 && !CALL(len)(&t, &n) && n == 2);
    CHECK(CALL(overwritten_left)(&t, 0, out, 80, &len) == JETUKOMA_NOT_FOUND);
    for (size_t at = 0; at < sizeof faulty / sizeof *faulty; at++) OUR(reads)(&t, faulty[at], JETUKOMA_REFUSED, ann);
    CHECK(CALL(from_json)(&t, NULL, 0) == JETUKOMA_REFUSED && CALL(to_json)(&t, NULL, 0, &len) == JETUKOMA_REFUSED);
    CHECK(CALL(to_json)(&t, out, 80, NULL) == JETUKOMA_REFUSED && CALL(from_json)(&t, out, SIZE_MAX) == JETUKOMA_REFUSED);
    CHECK(CALL(to_json)(&t, out, strlen(ann) - 1, &len) == JETUKOMA_BUFFER_TOO_SHORT && len == strlen(ann) && out[0] == 77);
    CHECK(!CALL(to_json)(&t, out, strlen(ann), &len) && !memcmp(out, ann, len));
    /* A left that is not UTF-8 cannot be written. */
    CHECK(!CALL(insert_no_overwrite)(&t, (const uint8_t *)"\xff", 1, 1));
    out[0] = 77, len = 99;
    CHECK(CALL(to_json)(&t, out, 80, &len) == JETUKOMA_REFUSED && out[0] == 77 && len == 99);
    /* The table keeps its kind: "aa" is its first left by order, and its last left by insertion. */
    OUR(reads)(&t, ann, 0, ann);
    CHECK(!CALL(insert_no_overwrite)(&t, (const uint8_t *)"aa", 2, 1));
    CHECK(CALL(pop_last)(&t) == (table_kind == JETUKOMA_HASHED ? JETUKOMA_NO_ORDER : 0));
    CHECK(CALL(contains_left)(&t, (const uint8_t *)"bob", 3) == (table_kind == JETUKOMA_ORDERED ? JETUKOMA_NOT_FOUND : 0));
    CHECK(CALL(contains_left)(&t, (const uint8_t *)"aa", 2) == (table_kind == JETUKOMA_INSERTION_ORDER ? JETUKOMA_NOT_FOUND : 0));
    CHECK(CALL(pair_at_rank)(&t, 1, out, 80, &len, &right) == (table_kind == JETUKOMA_ORDERED ? 0 : JETUKOMA_NO_ORDER));
    OUR(reads)(&t, both, 0, both);
    /* Each allocation is refused once. */
    for (size_t most = 0, refused = 1; refused && most < 1000; most++) {
        granted = most;
        uint32_t written = CALL(to_json)(&t, out, 80, &len);
        granted = most;
        uint32_t read = CALL(from_json)(&t, (const uint8_t *)ann, strlen(ann));
        granted = SIZE_MAX, refused = written | read;
        CHECK((!written || written == JETUKOMA_NO_MEMORY) && (!read || read == JETUKOMA_NO_MEMORY) && most < 999);
        CHECK(!CALL(len)(&t, &n) && n == (read ? 3 : 2));
        OUR(reads)(&t, both, 0, both);
    }
    CHECK(!CALL(free)(&t) && blocks == 0);
}

/* Writes an object with a pair for every ten of the random calls, and reads it. */
static void OUR(large_json)(void) {
    OUR(table) t = {0}, back = {0};
    size_t pairs = (size_t)calls / 10, room = pairs * 32 + 2, len = 0, n = 0;
    uint8_t *text = malloc(room);
    char name[32];
    uint64_t right = 0;
    CHECK(text && !CALL(new)(&t, table_kind, 1) && !CALL(new)(&back, table_kind, 2));
    for (size_t at = 0; at < pairs && failed < 20; at++)
        CHECK(!CALL(insert_no_overwrite)(&t, (uint8_t *)name, (size_t)sprintf(name, "name %zu", at), pairs - at));
    CHECK(!CALL(to_json)(&t, text, room, &len) && len > pairs * 10 && !CALL(from_json)(&back, text, len));
    CHECK(!CALL(len)(&back, &n) && n == pairs);
    for (size_t at = 0; at < pairs && failed < 20; at++)
        CHECK(!CALL(get_by_left)(&back, (uint8_t *)name, (size_t)sprintf(name, "name %zu", at), &right) && right == pairs - at);
    free(text);
    CHECK(!CALL(free)(&t) && !CALL(free)(&back) && blocks == 0);
}
#endif

static void OUR(own)(OUR(table) *table, uint32_t status) {
    OUR(out) left, right;
    size_t len = 99;
    size_t rank = 99;
    uint32_t missing = status ? status : JETUKOMA_NOT_FOUND, unordered = !status && table_kind != JETUKOMA_ORDERED ? JETUKOMA_NO_ORDER : 0;
    CHECK(CALL(overwritten_left)(table, 0, left.bytes, MANY, &len) == missing && CALL(overwritten_right)(table, 0, RIGHT_OUT(right)) == missing);
    CHECK(CALL(overwritten_left)(table, SIZE_MAX, left.bytes, MANY, &len) == missing && len == 99);
    CHECK(CALL(pair_at_rank)(table, 0, left.bytes, MANY, &len, RIGHT_OUT(right)) == (unordered ? unordered : missing) && len == 99);
    CHECK(CALL(pair_at_rank)(table, SIZE_MAX, left.bytes, MANY, &len, RIGHT_OUT(right)) == (unordered ? unordered : missing));
    CHECK(CALL(left_rank)(table, LEFT(3), &rank) == (unordered ? unordered : status) && rank == (status || unordered ? 99 : 0));
    NAME(SIDES, row) row = {99, 99};
    size_t filled = 99;
    CHECK(CALL(fill)(table, 0, left.bytes, MANY, &row, 1, &len, &filled) == status && len == (status ? 99 : 0) && filled == len && row.left_len == 99);
    CHECK(CALL(fill)(table, SIZE_MAX, left.bytes, 0, &row, 0, &len, &filled) == status && len == (status ? 99 : 0) && filled == len);
    uint32_t endless = !status && table_kind == JETUKOMA_HASHED ? JETUKOMA_NO_ORDER : status;
    len = filled = 99;
    CHECK(CALL(fill_back)(table, 0, left.bytes, MANY, &row, 1, &len, &filled) == endless && len == (endless ? 99 : 0) && filled == len);
    CHECK(CALL(fill_back)(table, SIZE_MAX, left.bytes, 0, &row, 1, &len, &filled) == endless && row.left_len == 99 && filled == (endless ? 99 : 0));
    len = filled = rank = 99;
    CHECK(CALL(right_rank)(table, RIGHT(3), &rank) == (unordered ? unordered : status) && rank == (status || unordered ? 99 : 0));
    CHECK(CALL(fill_by_right)(table, 0, left.bytes, MANY, &row, 1, &len, &filled) == (unordered ? unordered : status));
    CHECK(len == (status || unordered ? 99 : 0) && filled == len && row.left_len == 99);
    /* Rows with more bytes than there are, also beyond SIZE_MAX. */
    NAME(SIDES, row) many[2] = {{2, 5}, {1, 6}}, huge[2] = {{SIZE_MAX, 5}, {RIGHT_IS_BYTES ? 0 : 6, 6}};
    uint32_t refused = status ? status : JETUKOMA_REFUSED;
    size_t all = RIGHT_IS_BYTES ? 14 : 3;
    CHECK(CALL(insert_many)(table, left.bytes, all - 1, many, 2, &filled) == refused && CALL(insert_many)(table, left.bytes, 0, many, 1, &filled) == refused);
    CHECK(CALL(insert_many)(table, left.bytes, MANY, huge, 1, &filled) == refused && CALL(insert_many)(table, left.bytes, MANY, huge, 2, &filled) == refused);
    huge[0].left_len = 1, huge[1].left_len = SIZE_MAX;
    CHECK(CALL(insert_many)(table, left.bytes, MANY, huge, 2, &filled) == refused && filled == (status || unordered ? 99 : 0));
    CHECK(status || (!CALL(len)(table, &len) && len == 0));
    CHECK(CALL(insert_many)(table, (const uint8_t *)"abcdefghijklmnopqrst", 20, many, 0, &filled) == status && filled == (status ? 99 : 0));
    CHECK(CALL(insert_many)(table, (const uint8_t *)"abcdefghijklmnopqrst", all, many, 2, &filled) == status && filled == (status ? 99 : 2));
    if (status) return;
    CHECK(!CALL(contains_left)(table, (const uint8_t *)"ab", 2) && !CALL(contains_left)(table, (const uint8_t *)(RIGHT_IS_BYTES ? "h" : "c"), 1));
    CHECK(!CALL(clear)(table));
    /* An empty byte string is inserted and looked up. A buffer of length 0 is long enough for it. */
    uint8_t byte = 77;
    CHECK(!CALL(insert_no_overwrite)(table, &byte, 0, RIGHT(4)) && !CALL(get_by_right)(table, RIGHT(4), &byte, 0, &len) && len == 0 && byte == 77);
    CHECK(!CALL(remove_by_right)(table, RIGHT(4)));
}
static void OUR(nulls)(OUR(table) *table, uint32_t null, uint32_t beyond) {
    OUR(out) right;
    uint8_t byte = 0;
    uint32_t kind;
    size_t len;
    CHECK(CALL(insert)(table, NULL, 0, RIGHT(1), &kind) == null && CALL(insert)(table, LEFT(1), RIGHT(1), NULL) == null);
    CHECK(CALL(insert)(table, &byte, SIZE_MAX, RIGHT(1), &kind) == beyond && CALL(insert_no_overwrite)(table, &byte, SIZE_MAX, RIGHT(1)) == beyond);
    CHECK(CALL(insert_with)(table, NULL, 0, RIGHT(1), 0, 0, &kind) == null && CALL(insert_with)(table, LEFT(1), RIGHT(1), 0, 0, NULL) == null);
    CHECK(CALL(insert_no_overwrite)(table, NULL, 0, RIGHT(1)) == null && CALL(insert_with)(table, &byte, SIZE_MAX, RIGHT(1), 0, 0, &kind) == beyond);
    CHECK(CALL(get_by_left)(table, NULL, 0, RIGHT_OUT(right)) == null && CALL(get_by_left)(table, &byte, SIZE_MAX, RIGHT_OUT(right)) == beyond);
    CHECK(CALL(get_by_right)(table, RIGHT(1), NULL, 0, &len) == null && CALL(get_by_right)(table, RIGHT(1), &byte, 1, NULL) == null);
    CHECK(CALL(get_by_right)(table, RIGHT(1), &byte, SIZE_MAX, &len) == beyond);
    CHECK(CALL(contains_left)(table, NULL, 0) == null && CALL(contains_left)(table, &byte, SIZE_MAX) == beyond);
    CHECK(CALL(remove_by_left)(table, NULL, 0) == null && CALL(remove_by_left)(table, &byte, SIZE_MAX) == beyond);
    CHECK(CALL(overwritten_left)(table, 0, NULL, 0, &len) == null && CALL(overwritten_left)(table, 0, &byte, 1, NULL) == null);
#if RIGHT_IS_BYTES
    CHECK(CALL(insert)(table, LEFT(1), NULL, 0, &kind) == null && CALL(insert_no_overwrite)(table, LEFT(1), &byte, SIZE_MAX) == beyond);
    CHECK(CALL(get_by_left)(table, LEFT(1), NULL, 0, &len) == null && CALL(get_by_left)(table, LEFT(1), &byte, 1, NULL) == null);
    CHECK(CALL(get_by_right)(table, NULL, 0, &byte, 1, &len) == null && CALL(contains_right)(table, NULL, 0) == null);
    CHECK(CALL(right_rank)(table, NULL, 0, &len) == null && CALL(right_rank)(table, &byte, SIZE_MAX, &len) == beyond);
    CHECK(CALL(remove_by_right)(table, NULL, 0) == null && CALL(overwritten_right)(table, 0, &byte, 1, NULL) == null);
#else
    CHECK(CALL(get_by_left)(table, LEFT(1), NULL) == null && CALL(overwritten_right)(table, 0, NULL) == null);
#endif
    CHECK(CALL(pair_at_rank)(table, 0, NULL, 0, &len, RIGHT_OUT(right)) == null && CALL(pair_at_rank)(table, 0, &byte, 1, NULL, RIGHT_OUT(right)) == null);
    NAME(SIDES, row) row;
    CHECK(CALL(fill)(table, 0, NULL, 0, &row, 1, &len, &len) == null && CALL(fill)(table, 0, &byte, 1, NULL, 0, &len, &len) == null);
    CHECK(CALL(fill)(table, 0, &byte, 1, &row, 1, NULL, &len) == null && CALL(fill)(table, 0, &byte, 1, &row, 1, &len, NULL) == null);
    CHECK(CALL(fill)(table, 0, &byte, SIZE_MAX, &row, 1, &len, &len) == beyond && CALL(fill)(table, 0, &byte, 1, &row, SIZE_MAX / 16, &len, &len) == beyond);
    CHECK(CALL(fill_back)(table, 0, NULL, 0, &row, 1, &len, &len) == null && CALL(fill_back)(table, 0, &byte, 1, NULL, 0, &len, &len) == null);
    CHECK(CALL(fill_back)(table, 0, &byte, 1, &row, 1, NULL, &len) == null && CALL(fill_back)(table, 0, &byte, 1, &row, 1, &len, NULL) == null);
    CHECK(CALL(fill_back)(table, 0, &byte, SIZE_MAX, &row, 1, &len, &len) == beyond);
    CHECK(CALL(fill_by_right)(table, 0, NULL, 0, &row, 1, &len, &len) == null && CALL(fill_by_right)(table, 0, &byte, 1, NULL, 0, &len, &len) == null);
    CHECK(CALL(fill_by_right)(table, 0, &byte, 1, &row, 1, NULL, &len) == null && CALL(fill_by_right)(table, 0, &byte, 1, &row, 1, &len, NULL) == null);
    CHECK(CALL(fill_by_right)(table, 0, &byte, SIZE_MAX, &row, 1, &len, &len) == beyond && CALL(right_rank)(table, RIGHT(1), NULL) == null);
    CHECK(CALL(insert_many)(table, NULL, 0, &row, 1, &len) == null && CALL(insert_many)(table, &byte, 1, NULL, 0, &len) == null);
    CHECK(CALL(insert_many)(table, &byte, 1, &row, 1, NULL) == null && CALL(insert_many)(table, &byte, SIZE_MAX, &row, 1, &len) == beyond);
    CHECK(CALL(insert_many)(table, &byte, 1, &row, SIZE_MAX / 16, &len) == beyond);
    CHECK(CALL(to_front)(table, NULL, 0) == null && CALL(to_front)(table, &byte, SIZE_MAX) == beyond);
    CHECK(CALL(to_back)(table, NULL, 0) == null && CALL(to_back)(table, &byte, SIZE_MAX) == beyond);
    CHECK(CALL(left_rank)(table, NULL, 0, &len) == null && CALL(left_rank)(table, LEFT(1), NULL) == null && CALL(left_rank)(table, &byte, SIZE_MAX, &len) == beyond);
}

#include "test_calls.h"
#undef RIGHT_IS_BYTES
#undef RIGHT_OUT
#undef OF_RIGHT
