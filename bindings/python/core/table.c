/* A table with the types of its sides: look-ups, and insertions under the rules of bidict. */
#include "core.h"

/* A seed that a stranger does not know, and that no two tables have in common. */
uint64_t next_seed;

Table *table_new(int kind, int keys, int values)
{
    Table *table = calloc(1, sizeof *table);
    if (!table) return (Table *)PyErr_NoMemory();
    table->users = 1, table->kind = kind, table->types[0] = keys, table->types[1] = values;
    table->shape = shape_of(kind, UNKNOWN, UNKNOWN);
    return table;
}

void table_release(Table *table)
{
    if (!table || --table->users) return;
    table_unmake(table);
    free(table);
}

/* Makes the handle, now that the types are known. If there is one, its shape has to be this one. */
int table_make(Table *table, const Shape *shape)
{
    if (table->shape.calls) {
        if (table->shape.sides[0].type == shape->sides[0].type && table->shape.sides[1].type == shape->sides[1].type) return 0;
        PyErr_SetString(PyExc_RuntimeError, "the types of the map changed during the call");
        return -1;
    }
    uint32_t kind = table->kind == LINKED ? INSERTION_ORDER : table->kind;
    if (done(shape->calls->make(&table->handle, kind, next_seed += 0x9e3779b97f4a7c15))) return -1;
    table->shape = *shape;
    return 0;
}

/* Frees the handle. The types are those that the user named. */
void table_unmake(Table *table)
{
    if (table->shape.calls) table->shape.calls->free(&table->handle);
    table->shape = shape_of(table->kind, UNKNOWN, UNKNOWN);
}

size_t table_len(Table *table)
{
    size_t len = 0;
    if (table->shape.calls) table->shape.calls->len(&table->handle, &len);
    return len;
}

/* Returns 0 if the status says so, and otherwise raises an error and returns -1. */
int done(uint32_t status)
{
    if (status == JETUKOMA_DONE) return 0;
    if (status == JETUKOMA_NO_MEMORY) PyErr_NoMemory();
    else if (!PyErr_Occurred()) PyErr_Format(PyExc_SystemError, "libjetukoma returned %u", (unsigned)status);
    return -1;
}

/* Returns 1 if the value is contained, 0 if it is not, and -1 with an error. */
int table_has(Table *table, int side, const Value *value)
{
    uint32_t status = table->shape.calls->has[side](&table->handle, value);
    return !status ? 1 : status == JETUKOMA_NOT_FOUND ? 0 : done(status);
}

/* Writes the partner of a value. The bytes of the partner are those of `found`. */
uint32_t partner_of(Table *table, int side, const Value *value, Found *found, Value *partner)
{
    found->bytes = found->few, found->room = sizeof found->few;
    uint32_t status = table->shape.calls->get[side](&table->handle, value, found);
    if (status == JETUKOMA_BUFFER_TOO_SHORT) {
        found->bytes = malloc(found->word), found->room = found->word;
        status = found->bytes ? table->shape.calls->get[side](&table->handle, value, found) : JETUKOMA_NO_MEMORY;
        if (status) found_free(found);
    }
    partner->word = found->word, partner->bytes = found->bytes;
    return status;
}

/* Does what `partner_object` does, for a partner of any type. */
PyObject *any_partner(Table *table, int side, const Value *value)
{
    Found found;
    Value partner;
    uint32_t status = partner_of(table, side, value, &found, &partner);
    if (status && (status == JETUKOMA_NOT_FOUND || done(status))) return NULL;
    PyObject *object = object_of(table->shape.sides[!side], &partner);
    found_free(&found);
    return object;
}

/* Appends pairs to the rows, from this position on. There have to be as many. */
int table_read(Table *table, bool back, size_t start, size_t count, Rows *rows)
{
    if (rows_room(rows, count, 16 * count)) return -1;
    for (size_t filled, need, used = 0; count; start += filled, count -= filled, used = 0) {
        filled = 0;
        uint32_t status = table->shape.calls->fill[back](&table->handle, start, rows, count, &filled, &used);
        need = status == JETUKOMA_BUFFER_TOO_SHORT ? used : 0;
        if (!need && done(status)) return -1;
        if (!need) rows->count += filled, rows->used += used;
        /* What did not fit goes into a longer buffer. */
        if (filled < count && rows_room(rows, 0, need > rows->space ? need : rows->space)) return -1;
        if (filled < count && !need && !filled) return done(JETUKOMA_NOT_FOUND);
    }
    return 0;
}

/* Removes the pair of a value. Returns 1 if there was one, 0 if there was none, and -1 with an error. */
int table_remove(Table *table, int side, const Value *value)
{
    uint32_t status = table->shape.calls->remove[side](&table->handle, value);
    if (status == JETUKOMA_NOT_FOUND) return 0;
    if (done(status)) return -1;
    table->moves++;
    return 1;
}

/* Moves the pair of a value to the end, or to the front. It returns what `table_remove` returns. */
int table_move(Table *table, int side, const Value *value, bool last)
{
    Found found;
    Value left = *value;
    uint32_t status = side ? partner_of(table, side, value, &found, &left) : JETUKOMA_DONE;
    if (!status) {
        status = table->shape.calls->move[last](&table->handle, &left);
        if (side) found_free(&found);
    }
    if (status == JETUKOMA_NOT_FOUND) return 0;
    if (done(status)) return -1;
    table->moves++;
    return 1;
}

/* Returns what the table has of a pair, or -1 with an error. There must be something. */
int what_is_there(Table *table, const Value pair[2], int key_side)
{
    Found found;
    Value right;
    int has_right = table_has(table, 1, pair + 1), left = key_side ? THE_VALUE : THE_KEY;
    if (has_right < 0) return -1;
    uint32_t status = partner_of(table, 0, pair, &found, &right);
    if (status == JETUKOMA_NOT_FOUND && has_right) return THE_KEY + THE_VALUE - left;
    if (done(status)) return -1;
    bool same = same_value(table->shape.sides[1], &right, pair + 1);
    found_free(&found);
    return same ? THE_PAIR : has_right ? BOTH : left;
}

/* Raises the error of bidict for a pair of which the table has this. */
void raise_duplicate(const Shape *shape, const Value pair[2], int key_side, int there)
{
    PyObject *package = PyImport_ImportModule("jetukoma._names");
    PyObject *error = package ? PyObject_CallMethod(package, "duplicate", "iN", there, item_of(shape, pair, key_side)) : NULL;
    if (error) PyErr_SetObject((PyObject *)Py_TYPE(error), error);
    Py_XDECREF(error);
    Py_XDECREF(package);
}

/* Makes the table again from its pairs. The new pair takes the position of the pair of its right. */
static uint32_t rebuild(Table *table, const Value pair[2])
{
    Rows rows = {0};
    Handle copy = {0};
    const Calls *calls = table->shape.calls;
    uint32_t kind, status = JETUKOMA_NO_MEMORY;
    if (!table_read(table, false, 0, table_len(table), &rows)) status = calls->make(&copy, INSERTION_ORDER, next_seed += 0x9e3779b97f4a7c15);
    const uint8_t *bytes = rows.bytes;
    for (size_t i = 0; i < rows.count && !status; i++) {
        Value it[2];
        bytes = pair_of(&table->shape, rows.words + 2 * i, bytes, it);
        bool right = same_value(table->shape.sides[1], it + 1, pair + 1);
        if (right) status = calls->insert(&copy, pair, false, false, &kind);
        else if (!same_value(table->shape.sides[0], it, pair)) status = calls->insert(&copy, it, false, false, &kind);
    }
    rows_free(&rows);
    calls->free(status ? &copy : &table->handle);
    if (!status) table->handle = copy, table->moves++;
    return status;
}

/* Inserts a pair and counts what changed. */
uint32_t table_insert(Table *table, const Value pair[2], bool left_refuses, bool right_refuses)
{
    uint32_t kind, status = table->shape.calls->insert(&table->handle, pair, left_refuses, right_refuses, &kind);
    if (!status) *(kind == 3 || kind == (table->shape.turned ? 2 : 1) ? &table->writes : &table->moves) += 1;
    return status;
}

/* Inserts a pair of which the table has this, and overwrites the pairs with its values. */
uint32_t overwrite(Table *table, const Value pair[2], int key_side, int there)
{
    bool at_right = there == BOTH ? key_side : there == (key_side ? THE_KEY : THE_VALUE);
    return table->kind == LINKED && at_right ? rebuild(table, pair) : table_insert(table, pair, false, false);
}

/* Inserts a pair under a policy. Returns -1 with an error if the policy refuses it. */
int table_put(Table *table, const Value pair[2], int key_side, int policy)
{
    bool linked = table->kind == LINKED && (key_side || policy >> 2);
    bool refuses[2] = {linked || (policy & 3) != DROP_OLD, linked || policy >> 2 != ALL_DROP_OLD >> 2};
    uint32_t status = table_insert(table, pair, refuses[key_side], refuses[!key_side]);
    if (status != JETUKOMA_REFUSED) return done(status);
    int there = what_is_there(table, pair, key_side);
    if (there <= THE_PAIR) return there;
    int action = policy >> 2 * (there - 1) & 3;
    if (action == DROP_OLD) return done(overwrite(table, pair, key_side, there));
    if (action == RAISE) raise_duplicate(&table->shape, pair, key_side, there);
    return action == RAISE ? -1 : 0;
}

/* Returns a table with the same pairs in the same order, or null with an error. */
Table *table_copy(Table *table)
{
    Table *copy = table_new(table->kind, table->types[0], table->types[1]);
    bool clones = copy && table->shape.calls, wrong = clones && done(table->shape.calls->clone(&table->handle, &copy->handle));
    if (clones && !wrong) copy->shape = table->shape;
    if (wrong) table_release(copy);
    return wrong ? NULL : copy;
}
