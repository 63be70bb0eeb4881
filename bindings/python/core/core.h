/* What the files of this module share. It is the fast half of the Python package: maps over the tables of libjetukoma.
 * The other half is in ../jetukoma. With the limited API of Python 3.9, one build works for all later versions.
 *
 * A method first turns its arguments into values of the table. Only this can run Python code of the user. What follows
 * runs under the interpreter's lock, so another thread never sees half of it. To make a tuple may run code of the user
 * too, by the garbage collector. So no tuple is made between a look-up and the change that relies on it. */
#ifndef CORE_H
#define CORE_H
#define PY_SSIZE_T_CLEAN
#define Py_LIMITED_API 0x03090000
#include <Python.h>
#include "jetukoma.h"

/* The stable ABI has these two since 3.10. Python 3.9 has them too, but its header hides them from the limited API. */
PyAPI_FUNC(const char *) PyUnicode_AsUTF8AndSize(PyObject *text, Py_ssize_t *size);
#define METH_FASTCALL 0x0080

/* The type of the keys or of the values. It is UNKNOWN until the first item comes, unless the user names it. */
enum { UNKNOWN, INT, U64, STR, BYTES };

/* The kinds of table, and one more. LINKED is a table in insertion order with the rules of OrderedBidict: a new pair
 * takes the position of the pair of the same key, or else that of the pair of the same value. */
enum { ORDERED = JETUKOMA_ORDERED, HASHED = JETUKOMA_HASHED, INSERTION_ORDER = JETUKOMA_INSERTION_ORDER, LINKED };

/* What a table has of a new pair, and what to do then. A policy has two bits for each case from THE_KEY on. */
enum { THE_PAIR, THE_KEY, THE_VALUE, BOTH };
enum { RAISE, DROP_NEW, DROP_OLD, ALL_DROP_OLD = DROP_OLD | DROP_OLD << 2 | DROP_OLD << 4 };

/* A side of a table. If `packed` is true, the table has its numbers as 8 bytes, whose order is that of the numbers. */
typedef struct { uint8_t type; bool packed; } Side;

#define TOP ((uint64_t)1 << 63) /* An int and its number differ in this bit, so that they have the same order. */
/* A value as a table takes it: a number, or the number of its bytes with the bytes. */
typedef struct { uint64_t word; const uint8_t *bytes; uint8_t own[8]; } Value;

/* Where a table writes a value. Long bytes are not in `few`, and `found_free` frees them. */
typedef struct { uint64_t word; uint8_t *bytes; size_t room; uint8_t few[256]; } Found;

/* Pairs as a table writes them: two words for each pair, and the bytes of all pairs, one behind another. There are `count`
 * pairs with `used` bytes. There is room for `room` pairs with `space` bytes. */
typedef struct { uint64_t *words; uint8_t *bytes; size_t count, room, used, space; } Rows;

typedef union { jetukoma_u64_u64 u64_u64; jetukoma_bytes_u64 bytes_u64; jetukoma_bytes_bytes bytes_bytes; } Handle;

/* The calls of a table. Of two calls, the first is for lefts or forwards, the second for rights or backwards. The first
 * `move` is to the front, the second to the back. */
typedef struct {
    uint32_t (*make)(Handle *, uint32_t kind, uint64_t seed), (*free)(Handle *), (*len)(Handle *, size_t *);
    uint32_t (*reserve)(Handle *, size_t), (*clear)(Handle *), (*clone)(Handle *, Handle *copy), (*equals)(Handle *, Handle *other);
    uint32_t (*has[2])(Handle *, const Value *), (*get[2])(Handle *, const Value *, Found *), (*remove[2])(Handle *, const Value *);
    uint32_t (*insert)(Handle *, const Value pair[2], bool left_refuses, bool right_refuses, uint32_t *kind);
    uint32_t (*fill[2])(Handle *, size_t start, Rows *, size_t count, size_t *filled, size_t *used);
    uint32_t (*rank)(Handle *, const Value *, size_t *), (*move[2])(Handle *, const Value *left);
} Calls;
extern const Calls calls_u64_u64, calls_bytes_u64, calls_bytes_bytes;

/* How a table stores keys and values. If `turned` is true, the values are its lefts. */
typedef struct {
    const Calls *calls; /* null if a type is unknown */
    Side sides[2];
    bool turned;
} Shape;

/* A table, which a map shares with its inverse and its iterators. It has a handle if its shape has calls. */
typedef struct {
    size_t users;
    uint8_t kind, types[2]; /* the types of the keys and the values that the user named */
    Shape shape;
    Handle handle;
    uint64_t moves, writes; /* how often a key or a position changed, and how often a key got another value */
} Table;

typedef struct Map {
    PyObject_HEAD
    Table *table;
    struct Map *other;  /* the inverse, if it was made */
    bool owns, inverse; /* whether this map owns a reference to `other`, and whether its keys are the values of the table */
    int policy;
} Map;

/* values.c */
int type_of(PyObject *object);
PyObject *settled(PyObject *object);
Shape shape_of(int kind, int keys, int values);
bool has_bytes(Side side);
int value_of(Side side, PyObject *object, Value *value);
PyObject *object_of(Side side, const Value *value);
PyObject *item_of(const Shape *shape, const Value pair[2], int key_side);
size_t bytes_of(const Shape *shape, const uint64_t *words);
const uint8_t *pair_of(const Shape *shape, const uint64_t *words, const uint8_t *bytes, Value pair[2]);
bool same_value(Side side, const Value *one, const Value *other);
int rows_room(Rows *rows, size_t more, size_t bytes);
int rows_add(Rows *rows, const Shape *shape, const Value pair[2]);
void rows_free(Rows *rows);

/* table.c */
extern uint64_t next_seed;
Table *table_new(int kind, int keys, int values);
Table *table_copy(Table *table);
void table_release(Table *table);
int table_make(Table *table, const Shape *shape);
void table_unmake(Table *table);
size_t table_len(Table *table);
int done(uint32_t status);
int table_has(Table *table, int side, const Value *value);
uint32_t partner_of(Table *table, int side, const Value *value, Found *found, Value *partner);
static inline void found_free(Found *found) { if (found->bytes != found->few) free(found->bytes); }
PyObject *any_partner(Table *table, int side, const Value *value);
int table_read(Table *table, bool back, size_t start, size_t count, Rows *rows);
int table_remove(Table *table, int side, const Value *value);
int table_move(Table *table, int side, const Value *value, bool last);
void raise_duplicate(const Shape *shape, const Value pair[2], int key_side, int there);
uint32_t overwrite(Table *table, const Value pair[2], int key_side, int there);
uint32_t table_insert(Table *table, const Value pair[2], bool left_refuses, bool right_refuses);
int what_is_there(Table *table, const Value pair[2], int key_side);
int table_put(Table *table, const Value pair[2], int key_side, int policy);

/* many.c */
bool alike(const Map *map, const Map *other);
int put_many(Map *map, PyObject *items, PyObject *more, int policy);
PyObject *map_insert(Map *map, PyObject *args);

/* walk.c and map.c */
extern PyTypeObject *walk_type, *map_type;
extern PyType_Spec walk_spec;
PyObject *walk_new(Table *table, int key_side, int what, bool back, size_t from, size_t to);
static inline int key_side(const Map *map) { return map->inverse ^ map->table->shape.turned; }

/* Returns the partner of a value. If the value is not contained, it returns null without an error. */
static inline PyObject *partner_object(Table *table, int side, const Value *value)
{
    Found found;
    Side other = table->shape.sides[!side];
    if (other.type != INT || other.packed) return any_partner(table, side, value);
    uint32_t status = table->shape.calls->get[side](&table->handle, value, &found);
    if (status == JETUKOMA_NOT_FOUND || done(status)) return NULL;
    return PyLong_FromLong((long)(found.word ^ TOP));
}
#endif
