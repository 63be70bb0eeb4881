/* The types Map and MutableMap, and the module. A method whose name begins with `_` is for the other half. */
#include <sys/random.h>
#include "core.h"

#define UNUSED __attribute__((unused))
PyTypeObject *map_type;

static PyObject *none_unless(int wrong) { return wrong ? NULL : Py_BuildValue(""); }

/* Returns a new map over a table. The table becomes the map's. */
static Map *map_of(PyTypeObject *type, Table *table, int policy)
{
    Map *map = table ? (Map *)PyType_GenericAlloc(type, 0) : NULL;
    if (map) map->table = table, map->policy = policy;
    else table_release(table);
    return map;
}

/* Makes an empty map. `_rules` of its class is the kind, and the policy from the third bit on. */
static PyObject *map_new(PyTypeObject *type, PyObject *args UNUSED, PyObject *named UNUSED)
{
    PyObject *rules = PyObject_GetAttrString((PyObject *)type, "_rules");
    long number = rules ? PyLong_AsLong(rules) : -1;
    Py_XDECREF(rules);
    return PyErr_Occurred() ? NULL : (PyObject *)map_of(type, table_new(number & 3, UNKNOWN, UNKNOWN), number >> 2);
}

static void map_free(Map *map)
{
    PyTypeObject *type = Py_TYPE(map);
    if (map->other) map->other->other = NULL;
    if (map->owns) Py_DECREF(map->other);
    table_release(map->table);
    ((freefunc)PyType_GetSlot(type, Py_tp_free))(map);
    Py_DECREF(type);
}

static PyObject *map_inverse(Map *map, void *none UNUSED)
{
    if (!map->other) {
        PyObject *type = PyObject_GetAttrString((PyObject *)Py_TYPE(map), "_inv_cls");
        if (!type) return NULL;
        map->table->users++;
        Map *other = map_of(type == Py_None ? Py_TYPE(map) : (PyTypeObject *)type, map->table, map->policy);
        Py_DECREF(type);
        if (!other) return NULL;
        other->inverse = !map->inverse;
        if (!map->other) other->other = map, map->other = other, map->owns = true;
        else Py_DECREF(other);
    }
    Py_INCREF(map->other);
    return (PyObject *)map->other;
}

static Py_ssize_t map_len(Map *map) { return table_len(map->table); }

/* Writes a key as a value of the table, which is made. */
static inline int value_from(Map *map, PyObject *key, Value *value)
{
    Side side = map->table->shape.sides[key_side(map)];
    if (side.type == INT && !side.packed && PyLong_CheckExact(key)) {
        value->word = (uint64_t)PyLong_AsLong(key) ^ TOP;
        if (value->word != ~TOP || !PyErr_Occurred()) return 0;
    }
    PyObject *it = settled(key);
    int wrong = it ? value_of(side, it, value) : -1;
    Py_XDECREF(it);
    return wrong;
}

/* Writes a key as a value to look up. Returns 1, or 0 if the map cannot contain it, or -1 with an error. */
static int find(Map *map, PyObject *key, Value *value)
{
    if (map->table->shape.calls && !value_from(map, key, value)) return 1;
    PyObject *error = PyErr_Occurred();
    if (error && error != PyExc_TypeError && error != PyExc_OverflowError && error != PyExc_UnicodeEncodeError) return -1;
    PyErr_Clear();
    /* A key that has no hash is an error in a dict too. */
    return PyObject_Hash(key) == -1 && PyErr_Occurred() ? -1 : 0;
}

/* Returns the value of a key, or null, without an error if there is none. */
static PyObject *value_at(Map *map, PyObject *key, Value *value)
{
    return find(map, key, value) > 0 ? partner_object(map->table, key_side(map), value) : NULL;
}

static PyObject *map_getitem(Map *map, PyObject *key)
{
    Value value;
    PyObject *found = value_at(map, key, &value);
    if (!found && !PyErr_Occurred()) PyErr_SetObject(PyExc_KeyError, key);
    return found;
}

static PyObject *map_get(Map *map, PyObject *const *args, Py_ssize_t count)
{
    Value value;
    if (count < 1 || count > 2) return PyErr_Format(PyExc_TypeError, "get expected 1 or 2 arguments, got %zd", count);
    PyObject *found = value_at(map, args[0], &value);
    if (!found && !PyErr_Occurred()) Py_INCREF(found = count > 1 ? args[1] : Py_None);
    return found;
}

static int map_contains(Map *map, PyObject *key)
{
    Value value;
    int found = find(map, key, &value);
    return found > 0 ? table_has(map->table, key_side(map), &value) : found;
}

static PyObject *map_iter(Map *map) { return walk_new(map->table, key_side(map), 0, false, 0, SIZE_MAX); }

static PyObject *map_walk(Map *map, PyObject *args)
{
    int what, back;
    Py_ssize_t from = 0, to = PY_SSIZE_T_MAX;
    if (!PyArg_ParseTuple(args, "ip|nn", &what, &back, &from, &to)) return NULL;
    return walk_new(map->table, key_side(map), what, back, from, to);
}

/* The copy of an inverse has a table of its own, in which the keys are the keys. */
static PyObject *map_copy(Map *map, PyObject *none UNUSED)
{
    Table *own = map->table, *table = map->inverse ? table_new(own->kind, own->types[1], own->types[0]) : table_copy(own);
    Map *copy = map_of(Py_TYPE(map), table, map->policy);
    if (copy && map->inverse && put_many(copy, (PyObject *)map, NULL, RAISE)) Py_CLEAR(copy);
    return (PyObject *)copy;
}

/* Returns whether both maps have the same items, or None if their tables store them in different ways. */
static PyObject *map_same(Map *map, PyObject *object)
{
    Table *mine = map->table, *theirs = PyObject_TypeCheck(object, map_type) ? ((Map *)object)->table : NULL;
    if (!theirs || !mine->shape.calls || !alike(map, (Map *)object)) return none_unless(0);
    uint32_t status = mine == theirs ? JETUKOMA_DONE : mine->shape.calls->equals(&mine->handle, &theirs->handle);
    return status != JETUKOMA_NOT_FOUND && done(status) ? NULL : PyBool_FromLong(!status);
}

/* Returns how many keys are less than this one. */
static PyObject *map_rank(Map *map, PyObject *key)
{
    Value left;
    size_t rank = 0;
    Table *table = map->table;
    bool known = table->shape.calls;
    if (known && (value_from(map, key, &left) || done(table->shape.calls->rank(&table->handle, &left, &rank)))) return NULL;
    return PyLong_FromSize_t(rank);
}

/* Returns whether this is an inverse, and its types. With two arguments it sets the types that are not zero. */
static PyObject *map_about(Map *map, PyObject *args)
{
    unsigned char given[2] = {0, 0}, *types = map->table->types;
    if (!PyArg_ParseTuple(args, "|bb", given, given + 1)) return NULL;
    for (int i = 0; i < 2; i++)
        if (given[i]) types[i ^ map->inverse] = given[i];
    const Side *sides = map->table->shape.sides;
    bool known = map->table->shape.calls;
    int side = key_side(map), keys = known ? sides[side].type : types[map->inverse], values = known ? sides[!side].type : types[!map->inverse];
    return Py_BuildValue("Oii", map->inverse ? Py_True : Py_False, keys, values);
}

static PyObject *map_put_many(Map *map, PyObject *args)
{
    PyObject *items, *more = NULL;
    int policy = map->policy;
    if (!PyArg_ParseTuple(args, "O|Oi", &items, &more, &policy)) return NULL;
    return none_unless(put_many(map, items, more && PyObject_IsTrue(more) ? more : NULL, policy));
}

/* Inserts a pair under a policy. If a type is unknown, the pair is a batch of one. */
static int put(Map *map, PyObject *key, PyObject *value, int policy)
{
    PyObject *objects[2] = {settled(key), settled(value)};
    Table *table = map->table;
    int side = key_side(map), wrong = !objects[0] || !objects[1];
    Value pair[2];
    if (!wrong && !table->shape.calls) {
        PyObject *items = Py_BuildValue("((OO))", objects[0], objects[1]);
        wrong = !items || put_many(map, items, NULL, policy);
        Py_XDECREF(items);
    } else if (!wrong) {
        for (int i = 0; i < 2 && !wrong; i++) wrong = value_of(table->shape.sides[side ^ i], objects[i], pair + (side ^ i));
        wrong = wrong || table_put(table, pair, side, policy);
    }
    Py_XDECREF(objects[0]);
    Py_XDECREF(objects[1]);
    return wrong ? -1 : 0;
}

static int map_setitem(Map *map, PyObject *key, PyObject *new)
{
    if (new) return put(map, key, new, map->policy);
    Value value;
    int found = find(map, key, &value);
    if (found > 0) found = table_remove(map->table, key_side(map), &value);
    if (!found) PyErr_SetObject(PyExc_KeyError, key);
    return found > 0 ? 0 : -1;
}

static PyObject *map_put(Map *map, PyObject *const *args, Py_ssize_t count)
{
    if (count != 3) return PyErr_Format(PyExc_TypeError, "_put expected 3 arguments, got %zd", count);
    return none_unless(put(map, args[0], args[1], PyLong_AsLong(args[2])));
}

static PyObject *map_pop(Map *map, PyObject *const *args, Py_ssize_t count)
{
    Value value;
    if (count < 1 || count > 2) return PyErr_Format(PyExc_TypeError, "pop expected 1 or 2 arguments, got %zd", count);
    PyObject *found = value_at(map, args[0], &value);
    if (found && table_remove(map->table, key_side(map), &value) < 0) Py_CLEAR(found);
    if (found || PyErr_Occurred()) return found;
    if (count == 1) return PyErr_SetObject(PyExc_KeyError, args[0]), NULL;
    Py_INCREF(args[1]);
    return args[1];
}

static PyObject *map_clear(Map *map, PyObject *none UNUSED)
{
    Table *table = map->table;
    table->moves++;
    return none_unless(table->shape.calls && done(table->shape.calls->clear(&table->handle)));
}

static PyObject *map_move(Map *map, PyObject *args)
{
    PyObject *key;
    int last;
    Value value;
    if (!PyArg_ParseTuple(args, "Op", &key, &last)) return NULL;
    int found = find(map, key, &value);
    if (found > 0) found = table_move(map->table, key_side(map), &value, last);
    if (!found) PyErr_SetObject(PyExc_KeyError, key);
    return none_unless(found <= 0);
}

#define METHOD(name, call, how, doc) {name, (PyCFunction)(void (*)(void))call, how, doc}
#define DOC(head, text, code) head "\n--\n\n" text "\n\n    >>> m = bidict({1: 'one', 2: 'two'})\n    >>> " code
static PyMethodDef methods[] = {
    METHOD("get", map_get, METH_FASTCALL, DOC("get(key, default=None)", "Returns the value of a key, or the default.", "m.get(3, 'none')\n    'none'")),
    METHOD("_copy", map_copy, METH_NOARGS, NULL),
    METHOD("_walk", map_walk, METH_VARARGS, NULL),
    METHOD("_same", map_same, METH_O, NULL),
    METHOD("_rank", map_rank, METH_O, NULL),
    METHOD("_about", map_about, METH_VARARGS, NULL),
    METHOD("_put_many", map_put_many, METH_VARARGS, NULL),
    {0},
};
static PyMethodDef changes[] = {
    METHOD("_put", map_put, METH_FASTCALL, NULL),
    METHOD("_move", map_move, METH_VARARGS, NULL),
    METHOD("clear", map_clear, METH_NOARGS, DOC("clear()", "Removes all items.", "m.clear()\n    >>> m\n    bidict()")),
    METHOD("insert", map_insert, METH_VARARGS,
           DOC("insert(key, value, /)", "Inserts an item as `forceput` does, and returns the items that it overwrote, that of the key first.",
               "m.insert(1, 'two')\n    ((1, 'one'), (2, 'two'))\n    >>> m.insert(3, 'three')\n    ()")),
    METHOD("pop", map_pop, METH_FASTCALL,
           DOC("pop(key[, default])", "Removes the item of a key and returns its value. If there is none, it returns the default or raises a KeyError.",
               "m.pop(1), m.pop(1, 'none')\n    ('one', 'none')")),
    {0},
};
static PyGetSetDef properties[] = {
    {"inverse", (getter)map_inverse, NULL, "The map from values to keys. It has the same items and follows each change.\n\n    >>> bidict({1: 'one'}).inverse['one']\n    1", NULL},
    {"inv", (getter)map_inverse, NULL, "The same as `inverse`.\n\n    >>> bidict({1: 'one'}).inv['one']\n    1", NULL},
    {0},
};
static PyType_Slot slots[] = {
    {Py_tp_new, map_new}, {Py_tp_dealloc, map_free}, {Py_mp_length, map_len}, {Py_mp_subscript, map_getitem}, {Py_sq_contains, map_contains},
    {Py_tp_iter, map_iter}, {Py_tp_methods, methods}, {Py_tp_getset, properties}, {0, NULL},
};
static PyType_Spec map_spec = {"jetukoma._core.Map", sizeof(Map), 0, Py_TPFLAGS_DEFAULT | Py_TPFLAGS_BASETYPE, slots};
static PyType_Slot change_slots[] = {{Py_tp_base, NULL}, {Py_mp_ass_subscript, map_setitem}, {Py_tp_methods, changes}, {0, NULL}};
static PyType_Spec mutable_spec = {"jetukoma._core.MutableMap", sizeof(Map), 0, Py_TPFLAGS_DEFAULT | Py_TPFLAGS_BASETYPE, change_slots};
static struct PyModuleDef module = {PyModuleDef_HEAD_INIT, "_core", NULL, -1, NULL, NULL, NULL, NULL, NULL};

PyMODINIT_FUNC PyInit__core(void)
{
    PyObject *it = PyModule_Create(&module), *mutable_type = NULL;
    if (getrandom(&next_seed, sizeof next_seed, 0) != sizeof next_seed) return PyErr_SetFromErrno(PyExc_OSError);
    walk_type = (PyTypeObject *)PyType_FromSpec(&walk_spec);
    change_slots[0].pfunc = map_type = (PyTypeObject *)PyType_FromSpec(&map_spec);
    if (map_type) mutable_type = PyType_FromSpec(&mutable_spec);
    if (!it || !walk_type || !mutable_type || PyModule_AddObject(it, "Map", (PyObject *)map_type)) return NULL;
    if (PyModule_AddObject(it, "MutableMap", mutable_type) || PyModule_AddStringConstant(it, "__version__", jetukoma_version())) return NULL;
    return it;
}
