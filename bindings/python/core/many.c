/* Many pairs in one call: all of them are inserted, or none. And an insertion that can be taken back. */
#include "core.h"

/* Pairs that were read, and how they are stored. The types are those of the keys and the values of the map. */
typedef struct {
    Map *map;
    int types[2];
    Shape shape;
    Rows rows;
} Batch;

static Batch batch_of(Map *map)
{
    const uint8_t *types = map->table->types;
    return (Batch){.map = map, .types = {types[map->inverse], types[!map->inverse]}, .shape = map->table->shape};
}

/* Appends a pair. The first pair decides the types that the user did not name. */
static int add(Batch *batch, PyObject *key, PyObject *value)
{
    PyObject *objects[2] = {settled(key), settled(value)};
    bool inverse = batch->map->inverse;
    int wrong = !objects[0] || !objects[1];
    for (int i = 0; i < 2 && !wrong; i++)
        if (!batch->types[i]) batch->types[i] = type_of(objects[i]);
    if (!batch->shape.calls) batch->shape = shape_of(batch->map->table->kind, batch->types[inverse], batch->types[!inverse]);
    int side = inverse ^ batch->shape.turned;
    Value pair[2];
    for (int i = 0; i < 2 && !wrong; i++) wrong = value_of(batch->shape.sides[side ^ i], objects[i], pair + (side ^ i));
    if (!wrong) wrong = rows_add(&batch->rows, &batch->shape, pair);
    Py_XDECREF(objects[0]);
    Py_XDECREF(objects[1]);
    return wrong;
}

/* Appends an item, which is a pair. */
static int add_item(Batch *batch, PyObject *item)
{
    PyObject *pair = PySequence_Tuple(item);
    if (!pair) return -1;
    Py_ssize_t size = PyTuple_Size(pair);
    int wrong = size == 2 ? add(batch, PyTuple_GetItem(pair, 0), PyTuple_GetItem(pair, 1)) : -1;
    if (size > 2) PyErr_SetString(PyExc_ValueError, "too many values to unpack (expected 2)");
    if (size < 2) PyErr_Format(PyExc_ValueError, "not enough values to unpack (expected 2, got %zd)", size);
    Py_DECREF(pair);
    return wrong;
}

/* Appends all items of an iterable. After each 10,000 it looks for a signal such as Ctrl-C. */
static int add_items(Batch *batch, PyObject *items)
{
    PyObject *walk = PyObject_GetIter(items), *item;
    int wrong = 0;
    for (size_t i = 1; walk && !wrong && (item = PyIter_Next(walk)); i++) {
        wrong = add_item(batch, item);
        Py_DECREF(item);
        if (!wrong && i % 10000 == 0) wrong = PyErr_CheckSignals();
    }
    Py_XDECREF(walk);
    return PyErr_Occurred() ? -1 : 0;
}

/* Returns whether the table of another map stores pairs as the table of this map does, or will do. */
bool alike(const Map *map, const Map *other)
{
    const Shape *theirs = &other->table->shape;
    Shape mine = map->table->shape;
    uint8_t types[2], *named = map->table->types;
    for (int i = 0; i < 2; i++) types[i] = named[i] ? named[i] : theirs->sides[i ^ theirs->turned].type;
    if (!mine.calls) mine = shape_of(map->table->kind, types[0], types[1]);
    bool same = mine.sides[0].type == theirs->sides[0].type && mine.sides[1].type == theirs->sides[1].type;
    return same && theirs->calls && mine.calls == theirs->calls && mine.turned == theirs->turned && map->inverse == other->inverse;
}

/* Reads the items of a mapping, or of an iterable of pairs. */
static int read_items(Batch *batch, PyObject *items)
{
    if (PyObject_TypeCheck(items, map_type) && alike(batch->map, (Map *)items)) {
        Table *from = ((Map *)items)->table;
        batch->shape = from->shape;
        return table_read(from, false, 0, table_len(from), &batch->rows);
    }
    PyObject *list = PyObject_HasAttrString(items, "keys") ? PyMapping_Items(items) : NULL;
    int wrong = PyErr_Occurred() ? -1 : add_items(batch, list ? list : items);
    Py_XDECREF(list);
    return wrong;
}

/* What insertions did. `old` has the overwritten pairs, and `kept` is memory that is freed to put them back. */
enum { NOTHING, INSERTED, OVERWROTE, OVERWROTE_TWO };
typedef struct {
    Rows old;
    void *kept;
    size_t keeps;
} Log;

static void log_free(Log *log) { rows_free(&log->old), free(log->kept); }

/* Notes the pair that has one of the values of a new pair. */
static int note(Log *log, Table *table, const Value pair[2], int side)
{
    Found found;
    Value old[2];
    old[side] = pair[side];
    if (done(partner_of(table, side, pair + side, &found, old + !side))) return -1;
    int wrong = rows_add(&log->old, &table->shape, old);
    found_free(&found);
    size_t keeps = 128 * log->old.room + log->old.space;
    if (wrong || keeps <= log->keeps) return wrong;
    void *more = realloc(log->kept, keeps);
    if (more) log->kept = more, log->keeps = keeps;
    return done(more ? JETUKOMA_DONE : JETUKOMA_NO_MEMORY);
}

/* Inserts a pair under a policy, and writes what it did. Returns -1 with an error, or what refuses the pair, or 0. */
static int put_noted(Log *log, uint8_t *what, Table *table, const Value pair[2], int side, int policy)
{
    uint32_t status = table_insert(table, pair, true, true);
    if (!status) *what = INSERTED;
    if (status != JETUKOMA_REFUSED) return done(status);
    int there = what_is_there(table, pair, side), action = there > 0 ? policy >> 2 * (there - 1) & 3 : DROP_NEW;
    if (action != DROP_OLD) return there < 0 || action == RAISE ? there : 0;
    bool of_key = there != THE_VALUE, of_value = there != THE_KEY;
    size_t count = log->old.count, used = log->old.used;
    int wrong = (of_value && note(log, table, pair, !side)) || (of_key && note(log, table, pair, side));
    if (wrong || done(overwrite(table, pair, side, there))) return log->old.count = count, log->old.used = used, -1;
    *what = of_key && of_value ? OVERWROTE_TWO : OVERWROTE;
    return 0;
}

/* Takes the pair that was noted last out of the log. */
static void last_noted(Log *log, const Shape *shape, Value pair[2])
{
    uint64_t *words = log->old.words + 2 * --log->old.count;
    log->old.used -= bytes_of(shape, words);
    pair_of(shape, words, log->old.bytes + log->old.used, pair);
}

/* Inserts a pair that was there before. If there is no memory, it frees what was kept for this and tries again. */
static void put_back(Table *table, const Value pair[2], void **kept)
{
    if (table_insert(table, pair, false, false) != JETUKOMA_NO_MEMORY) return;
    free(*kept);
    *kept = NULL;
    table_insert(table, pair, false, false);
}

static void take_back(Log *log, Table *table, const Value pair[2], int what)
{
    Value old[2];
    if (what == INSERTED) table_remove(table, 0, pair);
    for (; what >= OVERWROTE; what--) {
        last_noted(log, &table->shape, old);
        put_back(table, old, &log->kept);
    }
}

/* Inserts the pairs under a policy, or none of them: if one fails, it takes back those before. */
static int put_rows(Table *table, const Rows *rows, int side, int policy)
{
    Log log = {0};
    Value pair[2], before[2];
    uint8_t *what = calloc(rows->count, 1), *bytes = rows->bytes;
    int refused = what ? 0 : done(JETUKOMA_NO_MEMORY);
    for (size_t i = 0; i < rows->count && !refused; i++) {
        pair_of(&table->shape, rows->words + 2 * i, bytes, pair);
        refused = put_noted(&log, what + i, table, pair, side, policy);
        if (!refused) bytes += bytes_of(&table->shape, rows->words + 2 * i);
        for (; refused && i; i--) {
            bytes -= bytes_of(&table->shape, rows->words + 2 * i - 2);
            pair_of(&table->shape, rows->words + 2 * i - 2, bytes, before);
            take_back(&log, table, before, what[i - 1]);
        }
    }
    if (refused > 0) raise_duplicate(&table->shape, pair, side, refused);
    free(what);
    log_free(&log);
    return refused ? -1 : 0;
}

/* Inserts the pairs. A single one needs no log. With the rules of OrderedBidict, an overwritten pair may not get its
 * position back, so the table is copied first. */
static int put_batch(Table *table, const Rows *rows, int side, int policy)
{
    Value pair[2];
    pair_of(&table->shape, rows->words, rows->bytes, pair);
    if (rows->count == 1) return table_put(table, pair, side, policy);
    if (!table_len(table) && done(table->shape.calls->reserve(&table->handle, rows->count))) return -1;
    bool copies = table->kind == LINKED && policy & (ALL_DROP_OLD ^ DROP_OLD);
    Table *saved = copies ? table_copy(table) : NULL;
    int wrong = copies && !saved ? -1 : put_rows(table, rows, side, policy);
    Handle handle = table->handle;
    if (saved && wrong) table->handle = saved->handle, saved->handle = handle;
    table_release(saved);
    return wrong;
}

/* Inserts the items of a mapping or of an iterable of pairs, and then those of a dict. Either may be null. If it fails,
 * the types are as unknown as before. */
int put_many(Map *map, PyObject *items, PyObject *more, int policy)
{
    Batch batch = batch_of(map);
    Table *table = map->table;
    bool fresh = !table->shape.calls;
    int wrong = (items && read_items(&batch, items)) || (more && read_items(&batch, more));
    if (!wrong && batch.rows.count) {
        wrong = table_make(table, &batch.shape) || put_batch(table, &batch.rows, key_side(map), policy);
        if (wrong && fresh && !table_len(table)) table_unmake(table);
    }
    rows_free(&batch.rows);
    return wrong ? -1 : 0;
}

/* Inserts a pair, and returns the items that it overwrote. */
PyObject *map_insert(Map *map, PyObject *args)
{
    Batch batch = batch_of(map);
    Table *table = map->table;
    Log log = {0};
    Value pair[2], old[2][2];
    uint8_t what = NOTHING;
    PyObject *key, *value, *items = NULL;
    bool fresh = !table->shape.calls, parsed = PyArg_UnpackTuple(args, "insert", 2, 2, &key, &value);
    if (parsed && !add(&batch, key, value) && !table_make(table, &batch.shape)) {
        pair_of(&table->shape, batch.rows.words, batch.rows.bytes, pair);
        int side = key_side(map), wrong = put_noted(&log, &what, table, pair, side, ALL_DROP_OLD);
        Rows noted = log.old;
        for (int i = 0; i < what - INSERTED; i++) last_noted(&log, &table->shape, old[i]);
        log.old = noted;
        if (what == OVERWROTE_TWO) items = Py_BuildValue("NN", item_of(&table->shape, old[0], side), item_of(&table->shape, old[1], side));
        else if (what == INSERTED) items = PyTuple_New(0);
        else if (!wrong) items = Py_BuildValue("(N)", item_of(&table->shape, what ? old[0] : pair, side));
        if (!items) take_back(&log, table, pair, what);
        if (!items && fresh && !table_len(table)) table_unmake(table);
    }
    rows_free(&batch.rows);
    log_free(&log);
    return items;
}
