/* Python objects as values of a table, and back. */
#include "core.h"

static const char *const NAMES[] = {"", "int", "jetukoma.u64", "str", "bytes"};
/* Returns the type of a side whose first value is this object. */
int type_of(PyObject *object)
{
    return PyLong_Check(object) ? INT : PyUnicode_Check(object) ? STR : PyBytes_Check(object) ? BYTES : UNKNOWN;
}

/* Returns the object, or the int that its __index__ returns, as a new reference. Nothing else calls __index__. */
PyObject *settled(PyObject *object)
{
    bool exact = PyLong_CheckExact(object) || PyUnicode_CheckExact(object) || PyBytes_CheckExact(object);
    if (!exact && PyIndex_Check(object) && !PyLong_Check(object)) return PyNumber_Index(object);
    Py_INCREF(object);
    return object;
}

bool has_bytes(Side side) { return side.packed || side.type >= STR; }

/* Returns how a table of this kind stores keys and values of these types. An order is that of the lefts, so only in a
 * hashed table the keys may be the rights. */
Shape shape_of(int kind, int keys, int values)
{
    bool texts = keys >= STR, turned = !texts && values >= STR && kind == HASHED, packed = !texts && values >= STR && !turned;
    Shape shape = {&calls_u64_u64, {{keys, packed}, {values, false}}, turned};
    if (turned) shape.sides[0] = shape.sides[1], shape.sides[1] = (Side){keys, false};
    if (values >= STR || texts) shape.calls = turned || values < STR ? &calls_bytes_u64 : &calls_bytes_bytes;
    if (!keys || !values) shape.calls = NULL;
    return shape;
}

static int wrong_type(int type, PyObject *object)
{
    const char *name = type ? NAMES[type] : "a type that a map can have";
    PyErr_Format(PyExc_TypeError, "expected %s, not %R: keys and values are int, jetukoma.u64, str or bytes", name, (PyObject *)Py_TYPE(object));
    return -1;
}

static int number_of(int type, PyObject *object, uint64_t *number)
{
    if (!PyLong_CheckExact(object) && (!PyLong_Check(object) || PyBool_Check(object))) return wrong_type(type, object);
    *number = type == INT ? (uint64_t)PyLong_AsLong(object) ^ TOP : PyLong_AsUnsignedLong(object);
    if (*number != (type == INT ? ~TOP : ~(uint64_t)0) || !PyErr_Occurred()) return 0;
    PyErr_Clear();
    PyErr_SetString(PyExc_OverflowError, type == INT ? "an int is from -2**63 to 2**63 - 1 here" : "a jetukoma.u64 is from 0 to 2**64 - 1");
    return -1;
}

/* Writes the value of a settled object. If it points to bytes of the object, they stay there as long as the object. */
int value_of(Side side, PyObject *object, Value *value)
{
    Py_ssize_t size = 8;
    if (side.type < STR) {
        if (number_of(side.type, object, &value->word)) return -1;
        if (!side.packed) return 0;
        uint64_t packed = __builtin_bswap64(value->word);
        memcpy(value->own, &packed, 8);
        value->bytes = value->own;
    } else if (side.type == STR) {
        if (!PyUnicode_CheckExact(object) && !PyUnicode_Check(object)) return wrong_type(STR, object);
        if (!(value->bytes = (const uint8_t *)PyUnicode_AsUTF8AndSize(object, &size))) return -1;
    } else {
        if (!PyBytes_CheckExact(object) && !PyBytes_Check(object)) return wrong_type(BYTES, object);
        if (PyBytes_AsStringAndSize(object, (char **)&value->bytes, &size)) return -1;
    }
    value->word = size;
    return 0;
}

/* Returns a value as an object. */
PyObject *object_of(Side side, const Value *value)
{
    uint64_t word = value->word;
    if (side.type == INT && !side.packed) return PyLong_FromLong((long)(word ^ TOP));
    if (side.type == STR) return PyUnicode_DecodeUTF8((const char *)value->bytes, word, NULL);
    if (side.type == BYTES) return PyBytes_FromStringAndSize((const char *)value->bytes, word);
    if (side.packed) {
        memcpy(&word, value->bytes, 8);
        word = __builtin_bswap64(word);
    }
    return side.type == INT ? PyLong_FromLong((long)(word ^ TOP)) : PyLong_FromUnsignedLong(word);
}

/* Returns a pair as an item, which is a tuple. */
PyObject *item_of(const Shape *shape, const Value pair[2], int key_side)
{
    const Side *sides = shape->sides;
    return Py_BuildValue("NN", object_of(sides[key_side], pair + key_side), object_of(sides[!key_side], pair + !key_side));
}

/* Returns how many bytes a pair of rows has. */
size_t bytes_of(const Shape *shape, const uint64_t *words)
{
    return (has_bytes(shape->sides[0]) ? words[0] : 0) + (has_bytes(shape->sides[1]) ? words[1] : 0);
}

/* Writes the values of a pair of rows, whose bytes begin here. Returns where they end. */
const uint8_t *pair_of(const Shape *shape, const uint64_t *words, const uint8_t *bytes, Value pair[2])
{
    pair[0].word = words[0], pair[1].word = words[1];
    pair[0].bytes = bytes, pair[1].bytes = has_bytes(shape->sides[0]) ? bytes + words[0] : bytes;
    return has_bytes(shape->sides[1]) ? pair[1].bytes + words[1] : pair[1].bytes;
}

bool same_value(Side side, const Value *one, const Value *other)
{
    return one->word == other->word && (!has_bytes(side) || !memcmp(one->bytes, other->bytes, one->word));
}

static int grow(void **block, size_t *room, size_t need, size_t each)
{
    if (need <= *room) return 0;
    size_t wanted = need < 2 * *room ? 2 * *room : need;
    void *longer = wanted > PTRDIFF_MAX / each ? NULL : realloc(*block, wanted * each);
    if (!longer) return done(JETUKOMA_NO_MEMORY);
    *block = longer, *room = wanted;
    return 0;
}

/* Makes room for more pairs, with more bytes. Neither block is null then. */
int rows_room(Rows *rows, size_t more, size_t bytes)
{
    if (grow((void **)&rows->bytes, &rows->space, rows->used + bytes + 1, 1)) return -1;
    return grow((void **)&rows->words, &rows->room, rows->count + more + 1, 2 * sizeof *rows->words);
}

/* Appends a copy of a pair. */
int rows_add(Rows *rows, const Shape *shape, const Value pair[2])
{
    uint64_t words[2] = {pair[0].word, pair[1].word};
    if (rows_room(rows, 1, bytes_of(shape, words))) return -1;
    for (int side = 0; side < 2; side++) {
        rows->words[2 * rows->count + side] = pair[side].word;
        if (!has_bytes(shape->sides[side])) continue;
        memcpy(rows->bytes + rows->used, pair[side].bytes, pair[side].word);
        rows->used += pair[side].word;
    }
    rows->count++;
    return 0;
}

void rows_free(Rows *rows) { free(rows->words), free(rows->bytes); }
