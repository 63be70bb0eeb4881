/* The iterators. A walk reads ever more pairs at a time, since some tables pass over all that they leave out. */
#include "core.h"

typedef struct {
    PyObject_HEAD
    Table *table;
    int side, what;        /* the side of the keys, and what to return: keys, values or items */
    bool back, from_end;   /* whether it goes from the end of the table, and from the end of the rows */
    size_t from, to, more; /* the positions that were not read, and how many to read next */
    Rows rows;
    size_t at; /* the next pair of the rows */
    const uint8_t *bytes; /* where its bytes begin or end */
    uint64_t moves, writes;
    PyObject *item; /* the last item */
} Walk;
PyTypeObject *walk_type;

/* Returns an iterator over positions. It returns keys if `what` is 0, values if it is 1, and items if it is 2. */
PyObject *walk_new(Table *table, int key_side, int what, bool back, size_t from, size_t to)
{
    Walk *walk = (Walk *)PyType_GenericAlloc(walk_type, 0);
    if (!walk) return NULL;
    size_t len = table_len(table);
    walk->table = table, walk->side = key_side, walk->what = what, walk->back = back;
    walk->from_end = back && table->kind < INSERTION_ORDER;
    walk->to = to < len ? to : len, walk->from = from < walk->to ? from : walk->to;
    walk->more = table->kind == HASHED ? len : 32;
    walk->moves = table->moves, table->users++;
    return (PyObject *)walk;
}

static void walk_free(Walk *walk)
{
    PyTypeObject *type = Py_TYPE(walk);
    rows_free(&walk->rows);
    Py_XDECREF(walk->item);
    table_release(walk->table);
    ((freefunc)PyType_GetSlot(type, Py_tp_free))(walk);
    Py_DECREF(type);
}

/* Reads the next pairs. */
static int read_next(Walk *walk)
{
    size_t count = walk->more < walk->to - walk->from ? walk->more : walk->to - walk->from;
    bool linked = walk->table->kind >= INSERTION_ORDER;
    walk->rows.count = walk->rows.used = 0;
    size_t start = !walk->back ? walk->from : linked ? table_len(walk->table) - walk->to : walk->to - count;
    if (table_read(walk->table, walk->back && linked, start, count, &walk->rows)) return -1;
    if (walk->back) walk->to -= count;
    else walk->from += count;
    walk->writes = walk->table->writes, walk->more *= 4;
    walk->at = walk->from_end ? count : 0, walk->bytes = walk->rows.bytes + (walk->from_end ? walk->rows.used : 0);
    return 0;
}

/* Writes the next pair. Returns 0 if there is none, and -1 with an error. */
static int next_pair(Walk *walk, Value pair[2])
{
    if (walk->moves != walk->table->moves) {
        PyErr_SetString(PyExc_RuntimeError, "the map changed during iteration");
        return -1;
    }
    if (walk->at == (walk->from_end ? 0 : walk->rows.count)) {
        if (walk->from == walk->to) return 0;
        if (read_next(walk)) return -1;
    }
    const Shape *shape = &walk->table->shape;
    if (walk->from_end) walk->at--, walk->bytes -= bytes_of(shape, walk->rows.words + 2 * walk->at);
    const uint8_t *end = pair_of(shape, walk->rows.words + 2 * walk->at, walk->bytes, pair);
    if (!walk->from_end) walk->at++, walk->bytes = end;
    return 1;
}

/* Returns a value of the pair that was read. The value of a key was perhaps overwritten since. */
static inline PyObject *object_at(Walk *walk, const Value pair[2], int side)
{
    const Shape *shape = &walk->table->shape;
    if (walk->writes != walk->table->writes && side != shape->turned) return partner_object(walk->table, !side, pair + !side);
    return object_of(shape->sides[side], pair + side);
}

static PyObject *walk_next(Walk *walk)
{
    Value pair[2];
    if (next_pair(walk, pair) <= 0) return NULL;
    PyObject *key = walk->what != 1 ? object_at(walk, pair, walk->side) : NULL;
    if (!walk->what) return key;
    PyObject *value = object_at(walk, pair, !walk->side), *item = walk->item;
    if (walk->what == 1) return value;
    /* An item that nobody else has any more is used again. */
    if (!item || Py_REFCNT(item) > 1) {
        Py_XDECREF(item);
        walk->item = item = PyTuple_New(2);
    }
    if (!item || !key || !value) return Py_XDECREF(key), Py_XDECREF(value), NULL;
    PyTuple_SetItem(item, 0, key), PyTuple_SetItem(item, 1, value), Py_INCREF(item);
    return item;
}

static PyType_Slot slots[] = {{Py_tp_dealloc, walk_free}, {Py_tp_iter, PyObject_SelfIter}, {Py_tp_iternext, walk_next}, {0, NULL}};
PyType_Spec walk_spec = {"jetukoma._core.Walk", sizeof(Walk), 0, Py_TPFLAGS_DEFAULT, slots};
