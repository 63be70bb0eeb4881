/* The tests of tables with one pair of sides, of each kind. The calls here take the numbers of values. */
static void OUR(statuses)(void) {
    OUR(table) t = {0};
    size_t n = 99;
    struct told told;
    struct pair pair;
    int it;
    OUR(own)(NULL, JETUKOMA_NO_TABLE);
    OUR(nulls)(NULL, JETUKOMA_NO_TABLE, JETUKOMA_NO_TABLE);
    CHECK(CALL(new)(NULL, table_kind, 0) == JETUKOMA_NO_TABLE && CALL(free)(NULL) == JETUKOMA_NO_TABLE && CALL(clear)(NULL) == JETUKOMA_NO_TABLE);
    CHECK(CALL(len)(NULL, &n) == JETUKOMA_NO_TABLE && CALL(capacity)(NULL, &n) == JETUKOMA_NO_TABLE && n == 99);
    CHECK(CALL(reserve)(NULL, 1) == JETUKOMA_NO_TABLE && CALL(shrink_to)(NULL, 1) == JETUKOMA_NO_TABLE && CALL(free)(&t) == JETUKOMA_NO_TABLE);
    CHECK(CALL(to_front)(NULL, LEFT(1)) == JETUKOMA_NO_TABLE && CALL(to_back)(NULL, LEFT(1)) == JETUKOMA_NO_TABLE);
    /* The handle has no table, then it has one, and then the table was freed twice. */
    for (int round = 0; round < 3; round++) {
        uint32_t status = round == 1 ? 0 : JETUKOMA_NO_TABLE, missing = status ? status : JETUKOMA_NOT_FOUND;
        uint32_t unmoved = status || table_kind == JETUKOMA_INSERTION_ORDER ? missing : JETUKOMA_NO_ORDER;
        uint32_t refused = status ? status : JETUKOMA_REFUSED, endless = status || table_kind != JETUKOMA_HASHED ? missing : JETUKOMA_NO_ORDER;
        if (round == 1) CHECK(!CALL(new)(&t, table_kind, 7) && CALL(new)(&t, table_kind, 7) == JETUKOMA_NO_TABLE);
        CHECK(CALL(new)(&t, KINDS, 7) == JETUKOMA_REFUSED && CALL(new)(&t, UINT32_MAX, 7) == JETUKOMA_REFUSED && t.live == (round == 1));
        n = 99, it = 99, pair = no_pair, told.kind = 99;
        OUR(nulls)(&t, JETUKOMA_REFUSED, JETUKOMA_REFUSED);
        CHECK(CALL(len)(&t, NULL) == JETUKOMA_REFUSED && CALL(capacity)(&t, NULL) == JETUKOMA_REFUSED);
        CHECK(CALL(len)(&t, &n) == status && n == (status ? 99 : 0) && CALL(capacity)(&t, &n) == status && n == (status ? 99 : 0));
        CHECK(OUR(get_by_left)(&t, 1, &it) == missing && OUR(get_by_right)(&t, 1, &it) == missing && it == 99);
        CHECK(CALL(contains_left)(&t, LEFT(1)) == missing && CALL(contains_right)(&t, RIGHT(0)) == missing);
        CHECK(OUR(remove_by_left)(&t, 1, &pair) == missing && OUR(remove_by_right)(&t, 0, &pair) == missing && pair.left == NONE);
        CHECK(OUR(pop)(&t, 1, &pair) == endless && OUR(pop)(&t, 0, &pair) == endless && pair.left == NONE);
        CHECK(CALL(to_front)(&t, LEFT(1)) == unmoved && CALL(to_back)(&t, LEFT(1)) == unmoved);
        OUR(own)(&t, status);
        CHECK(CALL(clear)(&t) == status && CALL(reserve)(&t, 0) == status && CALL(reserve)(&t, 6) == status);
        CHECK(CALL(capacity)(&t, &n) == status && (status || n >= 6));
        size_t was = n;
        CHECK(CALL(reserve)(&t, SIZE_MAX) == (status ? status : JETUKOMA_NO_MEMORY));
        CHECK(CALL(reserve)(&t, SIZE_MAX / 64) == (status ? status : JETUKOMA_NO_MEMORY));
        CHECK(CALL(capacity)(&t, &n) == status && n == was && CALL(shrink_to)(&t, SIZE_MAX) == status && CALL(shrink_to)(&t, was) == status);
        CHECK(CALL(capacity)(&t, &n) == status && n == was && CALL(shrink_to)(&t, 3) == status);
        CHECK(CALL(capacity)(&t, &n) == status && n == (status ? was : 3) && CALL(shrink_to)(&t, 0) == status);
        CHECK(CALL(capacity)(&t, &n) == status && n == (status ? was : 0));
        CHECK(OUR(insert_with)(&t, 1, 2, 2, 0, &told) == refused && OUR(insert_with)(&t, 1, 2, 0, 255, &told) == refused);
        CHECK(told.kind == 99 && CALL(insert_no_overwrite)(&t, LEFT(1), RIGHT(2)) == status);
        CHECK(CALL(insert_no_overwrite)(&t, LEFT(1), RIGHT(2)) == refused && CALL(insert_no_overwrite)(&t, LEFT(0), RIGHT(2)) == refused);
        CHECK(OUR(insert)(&t, 0, 3, &told) == status && told.kind == (status ? 99 : 0));
        CHECK(OUR(insert_with)(&t, 1, 3, 1, 0, &told) == refused && OUR(insert_with)(&t, 1, 3, 0, 1, &told) == refused);
        CHECK(OUR(insert)(&t, 1, 3, &told) == status && told.kind == (status ? 99 : 4));
        CHECK(status || (same_pair(told.first, (struct pair){1, 2}) && same_pair(told.second, (struct pair){0, 3})));
        CHECK(CALL(len)(&t, &n) == status && (status || n == 1));
        CHECK(OUR(get_by_right)(&t, 3, &it) == status && it == (status ? 99 : 1));
        if (round == 1) CHECK(!CALL(free)(&t) && CALL(free)(&t) == JETUKOMA_NO_TABLE && !t.live);
    }
    CHECK(blocks == 0);
}

/* Returns whether the pair of left a comes before the pair of left b. */
static int OUR(before)(int a, int b) { return table_kind == JETUKOMA_ORDERED ? OUR(below)(a, b) : position_of[a] < position_of[b]; }

/* Tests that an ordered table has exactly the pairs of the model in the order of their rights. */
static void OUR(same_by_right)(OUR(table) *t) {
    struct pair row[MANY + 8];
    size_t len = 0, rank = 99;
    if (table_kind != JETUKOMA_ORDERED) {
        CHECK(CALL(right_rank)(t, RIGHT(1), &rank) == JETUKOMA_NO_ORDER && rank == 99);
        return;
    }
    for (size_t few = 1; few && len <= MANY; len += few) few = OUR(few_by_right)(t, len, row + len);
    CHECK(len == (size_t)held);
    for (size_t at = 0; at < len; at++) {
        CHECK(row[at].left >= 0 && right_of[row[at].left] == row[at].right && (!at || OUR(below_right)(row[at - 1].right, row[at].right)));
        CHECK(!CALL(right_rank)(t, RIGHT(row[at].right), &rank) && rank == at);
    }
    int other = chance(MANY);
    size_t below = 0;
    for (int right = 0; right < MANY; right++) below += left_of[right] != NONE && OUR(below_right)(right, other);
    CHECK(!CALL(right_rank)(t, RIGHT(other), &rank) && rank == below);
}

/* Tests that the table has exactly the pairs of the model, in their order. No memory is granted meanwhile. */
static void OUR(same)(OUR(table) *t) {
    size_t len, capacity, saved = granted;
    granted = 0;
    CHECK(!CALL(len)(t, &len) && len == (size_t)held && !CALL(capacity)(t, &capacity) && capacity >= len);
    for (int value = 0; value < MANY; value++) {
        int right = NONE, left = NONE;
        CHECK(OUR(get_by_left)(t, value, &right) == (right_of[value] == NONE ? JETUKOMA_NOT_FOUND : 0) && right == right_of[value]);
        CHECK(OUR(get_by_right)(t, value, &left) == (left_of[value] == NONE ? JETUKOMA_NOT_FOUND : 0) && left == left_of[value]);
    }
    struct pair row[MANY + 1];
    CHECK(!OUR(walk)(t, row, &len) && len == (size_t)held);
    for (size_t at = 0; at < len; at++) {
        CHECK(row[at].left >= 0 && right_of[row[at].left] == row[at].right);
        CHECK(!at || table_kind == JETUKOMA_HASHED || OUR(before)(row[at - 1].left, row[at].left));
        for (size_t other = 0; other < at; other++) CHECK(row[other].left != row[at].left);
    }
    OUR(same_by_right)(t);
    granted = saved;
}

/* Makes one random call on the table and on the model. Only insertions, `reserve` and `shrink_to` are granted memory. */
static void OUR(one)(OUR(table) *t) {
    int left = chance(MANY), right = chance(MANY), l = chance(2), r = chance(2), it = NONE;
    struct told told = {0, no_pair, no_pair}, wanted = told;
    struct pair pair = no_pair;
    uint32_t missing_left = right_of[left] == NONE ? JETUKOMA_NOT_FOUND : 0;
    uint32_t missing_right = left_of[right] == NONE ? JETUKOMA_NOT_FOUND : 0;
    struct pair many[4];
    size_t count = (size_t)chance(5), taken = 99, was = 0, now = 0, least = (size_t)chance(MANY);
    int call = chance(15);
    granted = call < 3 || call == 9 || call > 12 ? SIZE_MAX : 0;
    switch (call) {
    case 0: CHECK(OUR(insert)(t, left, right, &told) == model_insert(left, right, 0, 0, &wanted) && same_told(told, wanted)); break;
    case 1: CHECK(OUR(insert_with)(t, left, right, l, r, &told) == model_insert(left, right, l, r, &wanted) && same_told(told, wanted)); break;
    case 2: CHECK(CALL(insert_no_overwrite)(t, LEFT(left), RIGHT(right)) == model_insert(left, right, 1, 1, &wanted)); break;
    case 3: CHECK(OUR(get_by_left)(t, left, &it) == missing_left && it == right_of[left]); break;
    case 4: CHECK(OUR(get_by_right)(t, right, &it) == missing_right && it == left_of[right]); break;
    case 5: CHECK(CALL(contains_left)(t, LEFT(left)) == missing_left && CALL(contains_right)(t, RIGHT(right)) == missing_right); break;
    case 6: CHECK(OUR(remove_by_left)(t, left, &pair) == missing_left && same_pair(pair, model_remove(left))); break;
    case 7: CHECK(OUR(remove_by_right)(t, right, &pair) == missing_right && same_pair(pair, model_remove(left_of[right]))); break;
    case 8: if (!chance(400)) CHECK(!CALL(clear)(t)), empty_model(); break;
    case 9: if (!chance(400)) CHECK(!CALL(reserve)(t, (size_t)chance(30))); break;
    case 10:
        if (chance(4)) break;
        CHECK(OUR(pop)(t, l, &pair) == (table_kind == JETUKOMA_HASHED ? JETUKOMA_NO_ORDER : held ? 0 : JETUKOMA_NOT_FOUND));
        for (int value = 0; pair.left >= 0 && value < MANY; value++)
            if (right_of[value] != NONE && value != pair.left) CHECK(OUR(before)(l ? pair.left : value, l ? value : pair.left));
        CHECK(same_pair(pair, model_remove(pair.left)));
        break;
    case 11: CHECK(CALL(to_front)(t, LEFT(left)) == model_move(left, 1)); break;
    case 12: CHECK(CALL(to_back)(t, LEFT(left)) == model_move(left, 0)); break;
    case 13:
        if (chance(100)) break;
        CHECK(!CALL(capacity)(t, &was) && !CALL(shrink_to)(t, least) && !CALL(capacity)(t, &now));
        if (least < (size_t)held) least = (size_t)held;
        CHECK(now == (least < was ? least : was));
        break;
    case 14:
        for (size_t at = 0; at < count; at++) many[at].left = chance(MANY), many[at].right = chance(MANY);
        CHECK(!OUR(insert_many)(t, many, count, &taken) && taken == count);
        for (size_t at = 0; at < count; at++) CHECK(!model_insert(many[at].left, many[at].right, 0, 0, &wanted));
    }
    granted = 0;
#if BYTES
    CHECK(same_pair(OUR(gone)(t, 0), last.first) && same_pair(OUR(gone)(t, 1), last.second));
#endif
    granted = SIZE_MAX;
}
static void OUR(calls)(void) {
    OUR(table) t = {0};
    empty_model();
    CHECK(!CALL(new)(&t, table_kind, (uint64_t)calls));
    for (long call = 0; call < calls && failed < 20; call++) {
        OUR(one)(&t);
        if (call % (calls / 1000) == 0) OUR(same)(&t);
    }
    CHECK(!CALL(free)(&t) && blocks == 0);
}

/* Clones and compares random tables, each with a table of each kind. */
static void OUR(pairs_of_tables)(void) {
    OUR(table) t = {0};
    struct told told;
    struct pair row[MANY + 1], copied[MANY + 1];
    size_t len, count, capacity, other_capacity;
    CHECK(CALL(clone)(NULL, &t) == JETUKOMA_NO_TABLE && CALL(clone)(&t, NULL) == JETUKOMA_NO_TABLE && CALL(clone)(&t, &t) == JETUKOMA_NO_TABLE && !t.live);
    CHECK(CALL(equals)(NULL, &t) == JETUKOMA_NO_TABLE && CALL(equals)(&t, NULL) == JETUKOMA_NO_TABLE && CALL(equals)(&t, &t) == JETUKOMA_NO_TABLE);
    CHECK(CALL(is_subset)(NULL, &t) == JETUKOMA_NO_TABLE && CALL(is_subset)(&t, NULL) == JETUKOMA_NO_TABLE && CALL(is_subset)(&t, &t) == JETUKOMA_NO_TABLE);
    for (int round = 0; round < 12 && failed < 20; round++) {
        OUR(table) copy = {0}, none = {0};
        empty_model();
        CHECK(!CALL(new)(&t, table_kind, (uint64_t)round));
        for (int made = round * 3; made; made--) {
            int left = chance(MANY), right = chance(MANY);
            CHECK(!OUR(insert)(&t, left, right, &told) && !model_insert(left, right, 0, 0, &told));
        }
        if (round > 6) CHECK(!CALL(reserve)(&t, 50));
        CHECK(CALL(clone)(&none, &copy) == JETUKOMA_NO_TABLE && !copy.live && CALL(clone)(&t, &t) == JETUKOMA_NO_TABLE);
        CHECK(CALL(equals)(&t, &none) == JETUKOMA_NO_TABLE && CALL(equals)(&none, &t) == JETUKOMA_NO_TABLE && !none.live);
        CHECK(CALL(is_subset)(&t, &none) == JETUKOMA_NO_TABLE && CALL(is_subset)(&none, &t) == JETUKOMA_NO_TABLE);
        CHECK(!CALL(equals)(&t, &t) && !CALL(is_subset)(&t, &t));
        /* Each allocation is refused once. The table stays as it is, and no block is left. */
        size_t before = blocks, most = 0;
        for (uint32_t status = 1; status && most < 1000; most++) {
            granted = most, status = CALL(clone)(&t, &copy), granted = SIZE_MAX;
            CHECK(!status || (status == JETUKOMA_NO_MEMORY && !copy.live && blocks == before));
        }
        CHECK(most < 1000), OUR(same)(&t), OUR(same)(&copy);
        CHECK(!CALL(capacity)(&t, &capacity) && !CALL(capacity)(&copy, &other_capacity) && capacity == other_capacity);
        /* The clone has the order of the table, and the same order after the same change. */
        for (int change = 0; change < 2; change++) {
            CHECK(!OUR(walk)(&t, row, &len) && !OUR(walk)(&copy, copied, &count) && len == count);
            for (size_t at = 0; at < len; at++) CHECK(same_pair(row[at], copied[at]));
            CHECK(!CALL(equals)(&t, &copy) && !CALL(equals)(&copy, &t) && !CALL(is_subset)(&t, &copy) && !CALL(is_subset)(&copy, &t));
            int left = chance(MANY), right = chance(MANY);
            CHECK(!OUR(insert)(&t, left, right, &told) && !OUR(insert)(&copy, left, right, &told) && !model_insert(left, right, 0, 0, &told));
        }
#if BYTES
        CHECK(!CALL(clear)(&copy) && !CALL(free)(&copy) && !CALL(clone)(&t, &copy));
        CHECK(same_pair(OUR(gone)(&copy, 0), no_pair) && same_pair(OUR(gone)(&t, 0), last.first));
#endif
        /* A handle with a table gets no clone. */
        CHECK(!CALL(clear)(&copy) && CALL(clone)(&t, &copy) == JETUKOMA_NO_TABLE && !CALL(len)(&copy, &len) && len == 0);
        CHECK(CALL(equals)(&t, &copy) == (held ? JETUKOMA_NOT_FOUND : 0) && !CALL(is_subset)(&copy, &t)), OUR(same)(&t);
        CHECK(!CALL(free)(&copy));
        for (uint32_t kind = 0; kind < KINDS; kind++) {
            CHECK(!CALL(new)(&copy, kind, 99) && !OUR(walk)(&t, row, &len));
            for (size_t at = len; at; at--) {
                CHECK(CALL(equals)(&t, &copy) == JETUKOMA_NOT_FOUND && CALL(equals)(&copy, &t) == JETUKOMA_NOT_FOUND);
                CHECK(!CALL(is_subset)(&copy, &t) && CALL(is_subset)(&t, &copy) == JETUKOMA_NOT_FOUND);
                CHECK(!CALL(insert_no_overwrite)(&copy, LEFT(row[at - 1].left), RIGHT(row[at - 1].right)));
            }
            CHECK(!CALL(equals)(&t, &copy) && !CALL(equals)(&copy, &t) && !CALL(is_subset)(&copy, &t) && !CALL(is_subset)(&t, &copy));
            /* As many pairs, of which one has another right. */
            int free_right = 0;
            while (left_of[free_right] != NONE) free_right++;
            CHECK(!OUR(insert)(&copy, row[0].left, free_right, &told) && told.kind == 1);
            CHECK(CALL(equals)(&t, &copy) == JETUKOMA_NOT_FOUND && CALL(is_subset)(&copy, &t) == JETUKOMA_NOT_FOUND);
            CHECK(CALL(is_subset)(&t, &copy) == JETUKOMA_NOT_FOUND && !CALL(free)(&copy));
        }
        OUR(same)(&t);
        CHECK(!CALL(free)(&t));
    }
    CHECK(blocks == 0);
}

/* Makes the calls with each number of granted allocations. A refused call must change nothing. With memory it must succeed. */
static void OUR(memory)(void) {
    int refused = 1;
    for (size_t most = 0; refused && failed < 20; most++) {
        OUR(table) t = {0};
        struct told told = {0, no_pair, no_pair}, wanted = told;
        empty_model();
        refused = 0, granted = most;
        if (CALL(new)(&t, table_kind, most)) {
            CHECK(CALL(new)(&t, table_kind, most) == JETUKOMA_NO_MEMORY && !t.live && CALL(free)(&t) == JETUKOMA_NO_TABLE);
            refused = 1, granted = SIZE_MAX;
            CHECK(!CALL(new)(&t, table_kind, most));
            granted = 0;
        }
        for (int value = 0; value < 20; value++) {
            size_t was, now, requests = granted;
            CALL(capacity)(&t, &was);
            uint32_t status = OUR(insert)(&t, value, 20 - value, &told);
            if (!status) {
                CHECK(!model_insert(value, 20 - value, 0, 0, &wanted) && same_told(told, wanted));
                continue;
            }
            CHECK(status == JETUKOMA_NO_MEMORY && requests < 8 && !CALL(capacity)(&t, &now) && now == was);
            CHECK(CALL(insert_no_overwrite)(&t, LEFT(value), RIGHT(20 - value)) == JETUKOMA_NO_MEMORY);
            CHECK(CALL(reserve)(&t, was + 1) == JETUKOMA_NO_MEMORY && !CALL(capacity)(&t, &now) && now == was);
            refused = 1, granted = SIZE_MAX;
            OUR(same)(&t);
            CHECK(!OUR(insert)(&t, value, 20 - value, &told) && !model_insert(value, 20 - value, 0, 0, &wanted));
            granted = 0;
        }
#if !BYTES
        /* An insertion that overwrites never allocates. */
        granted = 0;
        CHECK(!OUR(insert)(&t, 3, 20, &told) && !model_insert(3, 20, 0, 0, &wanted) && same_told(told, wanted));
#endif
        granted = SIZE_MAX;
        OUR(same)(&t);
        /* The capacity shrinks, or it stays. */
        size_t wide, now;
        CHECK(!CALL(reserve)(&t, 50) && !CALL(capacity)(&t, &wide));
        for (uint32_t status = 1, some = 0; status && some < 100; some++) {
            granted = some, status = CALL(shrink_to)(&t, 25), granted = SIZE_MAX;
            CHECK((!status || status == JETUKOMA_NO_MEMORY) && !CALL(capacity)(&t, &now) && now == (status ? wide : 25));
            OUR(same)(&t);
        }
        /* The table has the pairs before the refused one. */
        struct pair many[MANY];
        size_t taken = 99;
        for (int at = 0; at < MANY; at++) many[at].left = at, many[at].right = at * 7 % MANY;
        CHECK(!CALL(clear)(&t) && !CALL(shrink_to)(&t, 20)), empty_model();
        granted = most;
        CHECK(OUR(insert_many)(&t, many, MANY, &taken) == (taken < MANY ? JETUKOMA_NO_MEMORY : 0) && (BYTES || taken >= 20));
        granted = SIZE_MAX, refused |= taken < MANY;
        for (size_t at = 0; at < taken; at++) CHECK(!model_insert(many[at].left, many[at].right, 0, 0, &wanted));
        OUR(same)(&t);
        CHECK(!CALL(free)(&t) && blocks == 0);
    }
}

static void OUR(tests)(void) {
    test(TEXT(SIDES), "statuses", OUR(statuses));
    test(TEXT(SIDES), "calls by chance", OUR(calls));
    test(TEXT(SIDES), "memory refused", OUR(memory));
    test(TEXT(SIDES), "clones and comparisons", OUR(pairs_of_tables));
#if !BYTES
    test(TEXT(SIDES), "pairs kept by a walk", OUR(retain));
#elif !RIGHT_IS_BYTES
    test(TEXT(SIDES), "JSON", OUR(json));
    test(TEXT(SIDES), "a large JSON", OUR(large_json));
#endif
}
#undef SIDES
#undef LEFT
#undef RIGHT
#undef CALL
#undef OUR
#undef BYTES
