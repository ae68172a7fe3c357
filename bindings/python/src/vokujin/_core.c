/* The maps of vokujin for Python: their keys are bytes or strings, their values any objects.
 *
 * The library maps keys to numbers. Here the number of a key is a slot of an array, which has the reference to the value:
 * the garbage collector reads that array, and allocates nothing.
 * The interpreter's lock is held during a call, and the library calls nothing of Python. Whatever may run other code (the
 * conversion of a key, the allocation of a container, the end of a value) stands before a call or after the map is whole
 * again, and no slot is used after it. Only lookups of many keys in a frozen map release the lock: pairs and values of that
 * map do not change, and each such lookup has a handle of its own. */
#define PY_SSIZE_T_CLEAN
#include <Python.h>
#include <stdbool.h>
#include <string.h>

#include "vokujin.h"

/* The values ---------------------------------------------------------------------------------------------------------- */

/* Slots of references. A slot without one has the next such slot, shifted by a bit, and its lowest bit is set. */
typedef struct {
    uintptr_t *slots;
    size_t used, room, unused;
} Values;

static const size_t NO_SLOT = SIZE_MAX >> 1;

static bool values_grow(Values *values) {
    size_t room = values->room + values->room / 2 + 8;
    uintptr_t *slots = PyMem_Realloc(values->slots, room * sizeof *slots);
    if (!slots) return false;
    values->slots = slots;
    values->room = room;
    return true;
}

/* Returns the slot of a new reference to the value, or NO_SLOT if an allocation fails. */
static size_t values_insert(Values *values, PyObject *value) {
    size_t slot = values->unused;
    if (slot != NO_SLOT) values->unused = values->slots[slot] >> 1;
    else if (values->used < values->room || values_grow(values)) slot = values->used++;
    else return NO_SLOT;
    values->slots[slot] = (uintptr_t)Py_NewRef(value);
    return slot;
}

static PyObject *values_get(const Values *values, size_t slot) {
    return Py_NewRef((PyObject *)values->slots[slot]);
}

/* Empties a slot, and returns its reference. */
static PyObject *values_take(Values *values, size_t slot) {
    PyObject *value = (PyObject *)values->slots[slot];
    values->slots[slot] = values->unused << 1 | 1;
    values->unused = slot;
    return value;
}

/* Puts a new reference into a slot, and returns the one that it had. */
static PyObject *values_swap(Values *values, size_t slot, PyObject *value) {
    PyObject *replaced = (PyObject *)values->slots[slot];
    values->slots[slot] = (uintptr_t)Py_NewRef(value);
    return replaced;
}

static void values_drop(Values values) {
    for (size_t slot = 0; slot < values.used; slot++)
        if (!(values.slots[slot] & 1)) Py_DECREF((PyObject *)values.slots[slot]);
    PyMem_Free(values.slots);
}

/* A map --------------------------------------------------------------------------------------------------------------- */

typedef struct {
    PyObject_HEAD
    union {
        vokujin_map map;
        vokujin_frozen frozen;
    };
    Values values;
    /* How often keys were inserted or removed, and how often a key was given another slot. */
    uint64_t changes, moves;
    bool is_text, is_frozen;
} Core;

typedef struct {
    PyTypeObject *pairs_type, *read_type, *frozen_type;
} State;

#define CORE(object) ((Core *)(object))

/* The bytes of a key, as long as its owner is referred to. */
typedef struct {
    const char *bytes;
    Py_ssize_t len;
    PyObject *owner;
} Key;

static bool key_of(const Core *self, PyObject *object, Key *key) {
    if (!self->is_text && PyBytes_Check(object)) {
        key->owner = Py_NewRef(object);
        key->bytes = PyBytes_AsString(object);
        key->len = PyBytes_Size(object);
    } else if (!self->is_text && (PyByteArray_Check(object) || PyMemoryView_Check(object))) {
        key->owner = PyBytes_FromObject(object);
        if (!key->owner) return false;
        key->bytes = PyBytes_AsString(key->owner);
        key->len = PyBytes_Size(key->owner);
    } else if (self->is_text && PyUnicode_Check(object)) {
        key->bytes = PyUnicode_AsUTF8AndSize(object, &key->len);
        if (!key->bytes) return false;
        key->owner = Py_NewRef(object);
    } else {
        PyErr_Format(PyExc_TypeError, "a key is %s, not %R", self->is_text ? "str" : "bytes", Py_TYPE(object));
        return false;
    }
    return true;
}

static PyObject *key_object(bool is_text, const char *bytes, size_t len) {
    if (is_text) return PyUnicode_DecodeUTF8(bytes, (Py_ssize_t)len, NULL);
    return PyBytes_FromStringAndSize(bytes, (Py_ssize_t)len);
}

/* Returns the pair of a key and a value, whose references it takes. */
static PyObject *pair_object(PyObject *key, PyObject *value) {
    PyObject *pair = key && value ? PyTuple_Pack(2, key, value) : NULL;
    Py_XDECREF(key);
    Py_XDECREF(value);
    return pair;
}

/* Returns 1 if what was looked up is there, 0 if not, and -1 with an error. */
static int answer(uint32_t code) {
    if (code == VOKUJIN_DONE) return 1;
    if (code == VOKUJIN_ABSENT) return 0;
    if (code == VOKUJIN_NO_MEMORY) PyErr_NoMemory();
    else if (code == VOKUJIN_FREED) PyErr_SetString(PyExc_RuntimeError, "the map has been freed");
    else PyErr_Format(PyExc_SystemError, "a call of the library returned %u", (unsigned)code);
    return -1;
}

/* The calls that both a map and a frozen one have --------------------------------------------------------------------- */

static uint32_t read_len(const Core *self, size_t *len) {
    return self->is_frozen ? vokujin_frozen_len(&self->frozen, len) : vokujin_len(&self->map, len);
}

static uint32_t read_get(const Core *self, const char *key, size_t len, uint64_t *slot) {
    return self->is_frozen ? vokujin_frozen_get(&self->frozen, key, len, slot) : vokujin_get(&self->map, key, len, slot);
}

static uint32_t read_longest_match(const Core *self, const char *query, size_t len, vokujin_pair *pair) {
    return self->is_frozen ? vokujin_frozen_longest_match(&self->frozen, query, len, pair) : vokujin_longest_match(&self->map, query, len, pair);
}

/* Writes the pair at an end, as vokujin_first and vokujin_last do. */
static uint32_t read_end(const Core *self, bool is_last, char *buffer, size_t len, vokujin_pair *pair) {
    vokujin_given given = {0, 0};
    if (!self->is_frozen) return (is_last ? vokujin_last : vokujin_first)(&self->map, buffer, len, pair);
    uint32_t code = vokujin_frozen_next_pairs(&self->frozen, "", 0, VOKUJIN_UNBOUNDED, "", 0, VOKUJIN_UNBOUNDED, is_last, buffer, len, pair, 1, &given);
    if (given.count == 1) return VOKUJIN_DONE;
    if (code == VOKUJIN_TOO_LONG) pair->key_len = given.key_len;
    return code == VOKUJIN_DONE ? VOKUJIN_ABSENT : code;
}

/* Changes of a map ---------------------------------------------------------------------------------------------------- */

/* Inserts a pair, or replaces the value of its key. Returns 0, or -1 with an error. */
static int store(Core *self, const Key *key, PyObject *value) {
    uint64_t replaced;
    size_t slot = values_insert(&self->values, value);
    if (slot == NO_SLOT) return answer(VOKUJIN_NO_MEMORY);
    uint32_t code = vokujin_insert(&self->map, key->bytes, (size_t)key->len, slot, &replaced);
    if (code == VOKUJIN_DONE) {
        self->changes++;
        return 0;
    }
    if (code == VOKUJIN_REPLACED) self->moves++;
    Py_DECREF(values_take(&self->values, code == VOKUJIN_REPLACED ? replaced : slot));
    return code == VOKUJIN_REPLACED ? 0 : answer(code);
}

/* Looks up a key, and writes a new reference to its value. Returns as answer does. */
static int look_up(const Core *self, const Key *key, PyObject **value) {
    uint64_t slot;
    int found = answer(read_get(self, key->bytes, (size_t)key->len, &slot));
    if (found == 1) *value = values_get(&self->values, slot);
    return found;
}

/* Removes the pair of a key, and writes the reference to its value. Returns as answer does. */
static int take(Core *self, const char *key, size_t len, PyObject **value) {
    uint64_t slot;
    int found = answer(vokujin_remove(&self->map, key, len, &slot));
    if (found == 1) {
        *value = values_take(&self->values, slot);
        self->changes++;
    }
    return found;
}

static void drop_pairs(Core *self) {
    Values values = self->values;
    self->values = (Values){.unused = NO_SLOT};
    self->changes++;
    vokujin_clear(&self->map);
    values_drop(values);
}

static PyObject *core_made(PyTypeObject *type, bool is_text) {
    allocfunc alloc = (allocfunc)PyType_GetSlot(type, Py_tp_alloc);
    PyObject *self = alloc(type, 0);
    if (!self) return NULL;
    vokujin_new(&CORE(self)->map);
    CORE(self)->values.unused = NO_SLOT;
    CORE(self)->is_text = is_text;
    return self;
}

static PyObject *core_new(PyTypeObject *type, PyObject *Py_UNUSED(args), PyObject *Py_UNUSED(names)) {
    return core_made(type, false);
}

static PyObject *text_new(PyTypeObject *type, PyObject *Py_UNUSED(args), PyObject *Py_UNUSED(names)) {
    return core_made(type, true);
}

static int core_traverse(PyObject *self, visitproc visit, void *arg) {
    const Values *values = &CORE(self)->values;
    Py_VISIT(Py_TYPE(self));
    for (size_t slot = 0; slot < values->used; slot++)
        if (!(values->slots[slot] & 1)) Py_VISIT((PyObject *)values->slots[slot]);
    return 0;
}

/* Calls on a frozen map raise RuntimeError from then on. */
static void drop_frozen(Core *self) {
    Values values = self->values;
    self->values = (Values){.unused = NO_SLOT};
    vokujin_frozen_free(&self->frozen);
    values_drop(values);
}

static int core_clear(PyObject *self) {
    (CORE(self)->is_frozen ? drop_frozen : drop_pairs)(CORE(self));
    return 0;
}

static void core_dealloc(PyObject *self) {
    PyTypeObject *type = Py_TYPE(self);
    freefunc release = (freefunc)PyType_GetSlot(type, Py_tp_free);
    PyObject_GC_UnTrack(self);
    if (CORE(self)->is_frozen) vokujin_frozen_free(&CORE(self)->frozen);
    else vokujin_free(&CORE(self)->map);
    values_drop(CORE(self)->values);
    release(self);
    Py_DECREF(type);
}

/* The calls of a dict ------------------------------------------------------------------------------------------------- */

static Py_ssize_t core_len(PyObject *self) {
    size_t len;
    return answer(read_len(CORE(self), &len)) == 1 ? (Py_ssize_t)len : -1;
}

static int core_contains(PyObject *self, PyObject *object) {
    Key key;
    uint64_t slot;
    if (!key_of(CORE(self), object, &key)) return -1;
    uint32_t code = read_get(CORE(self), key.bytes, (size_t)key.len, &slot);
    Py_DECREF(key.owner);
    return answer(code);
}

/* Returns a new reference to the value of a key, or to `other` if the key is absent. Without `other` that is a KeyError. The
 * pair is removed if asked to. */
static PyObject *value_or(PyObject *self, PyObject *object, PyObject *other, bool removes) {
    Key key;
    PyObject *value = NULL;
    if (!key_of(CORE(self), object, &key)) return NULL;
    int found = removes ? take(CORE(self), key.bytes, (size_t)key.len, &value) : look_up(CORE(self), &key, &value);
    Py_DECREF(key.owner);
    if (found == 0 && other) return Py_NewRef(other);
    if (found == 0) PyErr_SetObject(PyExc_KeyError, object);
    return value;
}

static PyObject *core_subscript(PyObject *self, PyObject *object) {
    return value_or(self, object, NULL, false);
}

static int core_ass_subscript(PyObject *self, PyObject *object, PyObject *value) {
    Key key;
    if (!value) {
        PyObject *removed = value_or(self, object, NULL, true);
        Py_XDECREF(removed);
        return removed ? 0 : -1;
    }
    if (!key_of(CORE(self), object, &key)) return -1;
    int status = store(CORE(self), &key, value);
    Py_DECREF(key.owner);
    return status;
}

/* Whether a call has as many arguments as it takes. */
static bool takes(Py_ssize_t count, Py_ssize_t least, Py_ssize_t most) {
    if (least <= count && count <= most) return true;
    PyErr_Format(PyExc_TypeError, "expected %zd to %zd arguments, got %zd", least, most, count);
    return false;
}

static PyObject *core_get(PyObject *self, PyObject *const *args, Py_ssize_t count) {
    return takes(count, 1, 2) ? value_or(self, args[0], count == 2 ? args[1] : Py_None, false) : NULL;
}

static PyObject *core_pop(PyObject *self, PyObject *const *args, Py_ssize_t count) {
    return takes(count, 1, 2) ? value_or(self, args[0], count == 2 ? args[1] : NULL, true) : NULL;
}

static PyObject *core_setdefault(PyObject *self, PyObject *const *args, Py_ssize_t count) {
    Key key;
    if (!takes(count, 1, 2) || !key_of(CORE(self), args[0], &key)) return NULL;
    PyObject *other = count == 2 ? args[1] : Py_None, *value = NULL;
    int found = look_up(CORE(self), &key, &value);
    if (found == 0 && store(CORE(self), &key, other) == 0) value = Py_NewRef(other);
    Py_DECREF(key.owner);
    return value;
}

/* Returns the sum of the value of a key and a number, and stores it. Two ints are added without running other code, so the
 * slot is still that of the key. */
static PyObject *sum_stored(Core *self, const Key *key, PyObject *number) {
    uint64_t slot;
    int found = answer(vokujin_get(&self->map, key->bytes, (size_t)key->len, &slot));
    if (found < 0) return NULL;
    PyObject *value = found ? values_get(&self->values, slot) : NULL;
    PyObject *sum = found ? PyNumber_Add(value, number) : Py_NewRef(number);
    if (sum && found && PyLong_CheckExact(value) && PyLong_CheckExact(number)) Py_DECREF(values_swap(&self->values, slot, sum));
    else if (sum && store(self, key, sum) < 0) Py_CLEAR(sum);
    Py_XDECREF(value);
    return sum;
}

static PyObject *core_add(PyObject *self, PyObject *const *args, Py_ssize_t count) {
    Key key;
    if (!takes(count, 1, 2) || !key_of(CORE(self), args[0], &key)) return NULL;
    PyObject *number = count == 2 ? Py_NewRef(args[1]) : PyLong_FromLong(1);
    PyObject *sum = number ? sum_stored(CORE(self), &key, number) : NULL;
    Py_XDECREF(number);
    Py_DECREF(key.owner);
    return sum;
}

static PyObject *core_clear_call(PyObject *self, PyObject *Py_UNUSED(none)) {
    drop_pairs(CORE(self));
    return Py_NewRef(Py_None);
}

static PyObject *core_compact(PyObject *self, PyObject *Py_UNUSED(none)) {
    return answer(vokujin_compact(&CORE(self)->map)) == 1 ? Py_NewRef(Py_None) : NULL;
}

/* Prefixes and ends --------------------------------------------------------------------------------------------------- */

static PyObject *core_count_prefix(PyObject *self, PyObject *object) {
    Key key;
    size_t count;
    if (!key_of(CORE(self), object, &key)) return NULL;
    uint32_t code = vokujin_count_prefix(&CORE(self)->map, key.bytes, (size_t)key.len, &count);
    Py_DECREF(key.owner);
    return answer(code) == 1 ? PyLong_FromSize_t(count) : NULL;
}

/* Writes the pair with the longest key that is a prefix of `len` bytes of the query, and its key's length. Returns as answer does. */
static int longest_match(const Core *self, const Key *query, size_t len, PyObject **pair, size_t *key_len) {
    vokujin_pair found;
    int status = answer(read_longest_match(self, query->bytes, len, &found));
    if (status != 1) return status;
    PyObject *value = values_get(&self->values, found.value);
    *pair = pair_object(key_object(self->is_text, query->bytes, found.key_len), value);
    *key_len = found.key_len;
    return *pair ? 1 : -1;
}

static PyObject *core_longest_match(PyObject *self, PyObject *object) {
    Key query;
    PyObject *pair = NULL;
    size_t len;
    if (!key_of(CORE(self), object, &query)) return NULL;
    int found = longest_match(CORE(self), &query, (size_t)query.len, &pair, &len);
    Py_DECREF(query.owner);
    return found == 0 ? Py_NewRef(Py_None) : pair;
}

/* Appends the pairs whose keys are prefixes of the query, the longest first: the next one is the longest that is shorter. */
static int append_matches(const Core *self, const Key *query, PyObject *list) {
    size_t len = (size_t)query->len, key_len;
    PyObject *pair;
    int found;
    while ((found = longest_match(self, query, len, &pair, &key_len)) == 1) {
        int status = PyList_Append(list, pair);
        Py_DECREF(pair);
        if (status < 0 || key_len == 0) return status;
        len = key_len - 1;
    }
    return found;
}

static PyObject *core_matches(PyObject *self, PyObject *object) {
    Key query;
    if (!key_of(CORE(self), object, &query)) return NULL;
    PyObject *list = PyList_New(0);
    if (list && (append_matches(CORE(self), &query, list) < 0 || PyList_Reverse(list) < 0)) Py_CLEAR(list);
    Py_DECREF(query.owner);
    return list;
}

/* Writes the pair at an end to a tuple, and removes it from the map if asked to. Returns as answer does. */
static int end_pair(Core *self, bool is_last, bool removes, PyObject *tuple) {
    char few[256], *bytes = few;
    vokujin_pair pair;
    PyObject *key, *value = NULL;
    uint32_t code = read_end(self, is_last, few, sizeof few, &pair);
    if (code == VOKUJIN_TOO_LONG) {
        bytes = PyMem_Malloc(pair.key_len);
        code = bytes ? read_end(self, is_last, bytes, pair.key_len, &pair) : VOKUJIN_NO_MEMORY;
    }
    int found = answer(code);
    if (found == 1 && (key = key_object(self->is_text, bytes, pair.key_len))) {
        if (removes) found = take(self, bytes, pair.key_len, &value);
        else value = values_get(&self->values, pair.value);
        PyTuple_SetItem(tuple, 0, key);
        PyTuple_SetItem(tuple, 1, value);
    } else if (found == 1) {
        found = -1;
    }
    if (bytes != few) PyMem_Free(bytes);
    return found;
}

/* Returns the pair at an end, or None. Its tuple is allocated first, so that nothing stands between lookup and removal. */
static PyObject *end_or_none(PyObject *self, bool is_last, bool removes) {
    PyObject *tuple = PyTuple_New(2);
    if (!tuple) return NULL;
    int found = end_pair(CORE(self), is_last, removes, tuple);
    if (found == 1) return tuple;
    Py_DECREF(tuple);
    return found == 0 ? Py_NewRef(Py_None) : NULL;
}

static PyObject *core_end(PyObject *self, PyObject *is_last) {
    return end_or_none(self, is_last == Py_True, false);
}

static PyObject *core_take_end(PyObject *self, PyObject *is_last) {
    return end_or_none(self, is_last == Py_True, true);
}

/* Iterations ---------------------------------------------------------------------------------------------------------- */

enum { KEYS, VALUES, ITEMS };

typedef struct {
    char *bytes;
    size_t len;
    uint32_t kind;
} Bound;

/* The pairs of a range, of which the library writes many by one call. */
typedef struct {
    PyObject_HEAD
    /* NULL once all pairs are taken. */
    Core *map;
    int kind;
    bool is_text, is_backward, is_more;
    /* The pairs between them are not written yet, if there are more. */
    Bound from, to;
    /* What is written: pairs, their keys, and how many of both are taken. */
    vokujin_pair *pairs;
    char *keys;
    size_t pairs_room, keys_room, count, next, at;
    /* The length of the next key, if it was too long. */
    size_t key_len;
    uint64_t changes, moves;
} Pairs;

#define PAIRS(object) ((Pairs *)(object))

static bool bound_set(Bound *bound, const char *bytes, size_t len, uint32_t kind) {
    char *copy = PyMem_Realloc(bound->bytes, len);
    if (!copy) {
        PyErr_NoMemory();
        return false;
    }
    memcpy(copy, bytes, len);
    *bound = (Bound){copy, len, kind};
    return true;
}

/* Makes room for another call: the first one is for few pairs, later ones are for more. */
static bool pairs_grow(Pairs *self) {
    size_t pairs_room = self->pairs_room == 0 ? 8 : self->pairs_room < 512 ? self->pairs_room * 4 : 512;
    size_t keys_room = self->keys_room > pairs_room * 32 ? self->keys_room : pairs_room * 32;
    if (keys_room < self->key_len) keys_room = self->key_len;
    vokujin_pair *pairs = PyMem_Realloc(self->pairs, pairs_room * sizeof *pairs);
    if (pairs) self->pairs = pairs;
    char *keys = PyMem_Realloc(self->keys, keys_room);
    if (keys) self->keys = keys;
    if (!pairs || !keys) {
        PyErr_NoMemory();
        return false;
    }
    self->pairs_room = pairs_room;
    self->keys_room = keys_room;
    return true;
}

/* Makes the last key that was taken the bound of what is left. */
static bool pairs_continue(Pairs *self) {
    if (self->count == 0) return true;
    size_t len = self->pairs[self->count - 1].key_len;
    Bound *bound = self->is_backward ? &self->to : &self->from;
    if (!bound_set(bound, self->keys + self->at - len, len, VOKUJIN_EXCLUDED)) return false;
    self->count = self->next = self->at = 0;
    return true;
}

static uint32_t pairs_read(Pairs *self, vokujin_given *given) {
    const Bound *from = &self->from, *to = &self->to;
    if (self->map->is_frozen)
        return vokujin_frozen_next_pairs(&self->map->frozen, from->bytes, from->len, from->kind, to->bytes, to->len, to->kind, self->is_backward,
                                         self->keys, self->keys_room, self->pairs, self->pairs_room, given);
    return vokujin_next_pairs(&self->map->map, from->bytes, from->len, from->kind, to->bytes, to->len, to->kind, self->is_backward,
                              self->keys, self->keys_room, self->pairs, self->pairs_room, given);
}

/* Has the library write the next pairs. The second time there is room for the next key. */
static bool pairs_fill(Pairs *self) {
    if (!pairs_continue(self)) return false;
    vokujin_given given = {0, 0};
    uint32_t code;
    do {
        if (!pairs_grow(self)) return false;
        code = pairs_read(self, &given);
        self->key_len = given.key_len;
    } while (code == VOKUJIN_TOO_LONG && given.count == 0);
    if (code != VOKUJIN_DONE && code != VOKUJIN_FULL && code != VOKUJIN_TOO_LONG) {
        answer(code);
        return false;
    }
    self->is_more = code != VOKUJIN_DONE;
    self->count = given.count;
    self->moves = self->map->moves;
    return true;
}

/* Writes a new reference to the value of the next pair. Since the pairs were written its key may have got another slot. */
static bool pairs_value(const Pairs *self, const char *key, PyObject **value) {
    const vokujin_pair *pair = &self->pairs[self->next];
    uint64_t slot = pair->value;
    if (self->kind == KEYS) return true;
    if (self->moves != self->map->moves && answer(read_get(self->map, key, pair->key_len, &slot)) != 1) return false;
    *value = values_get(&self->map->values, slot);
    return true;
}

/* Returns the next pair, which is written. It is taken before a tuple is allocated, since that may run other code. */
static PyObject *pairs_take(Pairs *self) {
    size_t len = self->pairs[self->next].key_len;
    const char *bytes = self->keys + self->at;
    PyObject *key = NULL, *value = NULL;
    if (!pairs_value(self, bytes, &value)) return NULL;
    if (self->kind != VALUES && !(key = key_object(self->is_text, bytes, len))) {
        Py_XDECREF(value);
        return NULL;
    }
    self->next++;
    self->at += len;
    return self->kind == KEYS ? key : self->kind == VALUES ? value : pair_object(key, value);
}

static PyObject *pairs_next(PyObject *object) {
    Pairs *self = PAIRS(object);
    if (!self->map) return NULL;
    if (self->changes != self->map->changes) {
        PyErr_SetString(PyExc_RuntimeError, "keys were inserted or removed during an iteration");
        return NULL;
    }
    if (self->next == self->count && self->is_more && !pairs_fill(self)) return NULL;
    if (self->next < self->count) return pairs_take(self);
    Py_CLEAR(self->map);
    return NULL;
}

static int pairs_traverse(PyObject *self, visitproc visit, void *arg) {
    Py_VISIT(Py_TYPE(self));
    Py_VISIT(PAIRS(self)->map);
    return 0;
}

static void pairs_dealloc(PyObject *self) {
    PyTypeObject *type = Py_TYPE(self);
    PyObject_GC_UnTrack(self);
    Py_XDECREF(PAIRS(self)->map);
    PyMem_Free(PAIRS(self)->from.bytes);
    PyMem_Free(PAIRS(self)->to.bytes);
    PyMem_Free(PAIRS(self)->pairs);
    PyMem_Free(PAIRS(self)->keys);
    PyObject_GC_Del(self);
    Py_DECREF(type);
}

/* Returns an iteration over what is between two bounds, which are to be set. */
static Pairs *pairs_new(PyObject *map, PyTypeObject *definer, int kind, bool is_backward) {
    State *state = PyType_GetModuleState(definer);
    Pairs *self = state ? PAIRS(PyType_GenericAlloc(state->pairs_type, 0)) : NULL;
    if (!self) return NULL;
    self->map = CORE(Py_NewRef(map));
    self->kind = kind;
    self->is_text = CORE(map)->is_text;
    self->is_backward = is_backward;
    self->is_more = true;
    self->changes = CORE(map)->changes;
    return self;
}

/* Sets a bound to a key. */
static bool bound_key(const Core *map, PyObject *object, uint32_t kind, Bound *bound) {
    Key key;
    if (!key_of(map, object, &key)) return false;
    bool is_set = bound_set(bound, key.bytes, (size_t)key.len, kind);
    Py_DECREF(key.owner);
    return is_set;
}

/* Sets a bound to a key, or to none if it is None. */
static bool bound_of(const Core *map, PyObject *object, bool is_included, Bound *bound) {
    if (object == Py_None) return bound_set(bound, "", 0, VOKUJIN_UNBOUNDED);
    return bound_key(map, object, is_included ? VOKUJIN_INCLUDED : VOKUJIN_EXCLUDED, bound);
}

/* Sets the bounds to those of the keys that start with a prefix. */
static bool bounds_of_prefix(Pairs *self, PyObject *prefix) {
    if (!bound_key(self->map, prefix, VOKUJIN_INCLUDED, &self->from)) return false;
    if (!bound_set(&self->to, self->from.bytes, self->from.len, VOKUJIN_EXCLUDED)) return false;
    self->to.len = vokujin_prefix_end(self->to.bytes, self->to.len);
    if (self->to.len == 0) self->to.kind = VOKUJIN_UNBOUNDED;
    return true;
}

/* The pairs of a range: kind, start, whether it is included, end, whether it is included, whether backward. */
static PyObject *core_range(PyObject *self, PyTypeObject *definer, PyObject *const *args, Py_ssize_t count, PyObject *Py_UNUSED(names)) {
    if (!takes(count, 6, 6)) return NULL;
    Pairs *pairs = pairs_new(self, definer, (int)PyLong_AsLong(args[0]), args[5] == Py_True);
    if (!pairs) return NULL;
    if (bound_of(CORE(self), args[1], args[2] == Py_True, &pairs->from) && bound_of(CORE(self), args[3], args[4] == Py_True, &pairs->to)) return (PyObject *)pairs;
    Py_DECREF(pairs);
    return NULL;
}

/* The pairs whose keys start with a prefix: kind, prefix, whether backward. */
static PyObject *core_prefix(PyObject *self, PyTypeObject *definer, PyObject *const *args, Py_ssize_t count, PyObject *Py_UNUSED(names)) {
    if (!takes(count, 3, 3)) return NULL;
    Pairs *pairs = pairs_new(self, definer, (int)PyLong_AsLong(args[0]), args[2] == Py_True);
    if (pairs && !bounds_of_prefix(pairs, args[1])) Py_CLEAR(pairs);
    return (PyObject *)pairs;
}

/* Sorted pairs, which a map without any starts with. Until it has them no other code runs ----------------------------- */

/* Adds a pair whose key is after all others. Returns as answer does, 0 if the key is not. */
static int push(Core *self, vokujin_builder *builder, const char *key, size_t len, PyObject *value) {
    size_t slot = values_insert(&self->values, value);
    uint32_t code = slot == NO_SLOT ? VOKUJIN_NO_MEMORY : vokujin_builder_push(builder, key, len, slot);
    if (code == VOKUJIN_DONE) return 1;
    if (slot != NO_SLOT) Py_DECREF(values_take(&self->values, slot));
    return code == VOKUJIN_NOT_AFTER ? 0 : answer(code);
}

/* Adds a pair of a list, if it is a tuple with a key that needs no other code. Returns as push does. */
static int push_item(Core *self, vokujin_builder *builder, PyObject *item) {
    if (!PyTuple_CheckExact(item) || PyTuple_Size(item) != 2) return 0;
    PyObject *object = PyTuple_GetItem(item, 0);
    Key key;
    if (self->is_text ? !PyUnicode_Check(object) : !PyBytes_Check(object)) return 0;
    if (!key_of(self, object, &key)) return -1;
    int pushed = push(self, builder, key.bytes, (size_t)key.len, PyTuple_GetItem(item, 1));
    Py_DECREF(key.owner);
    return pushed;
}

/* Adds pairs of a list until one can't be added, and writes how many it added. Returns as push does for the last one. */
static int push_list(Core *self, vokujin_builder *builder, PyObject *list, Py_ssize_t *taken) {
    int pushed = 1;
    Py_ssize_t at = 0;
    while (pushed == 1 && at < PyList_Size(list))
        if ((pushed = push_item(self, builder, PyList_GetItem(list, at))) == 1) at++;
    *taken = at;
    return pushed;
}

/* Adds all pairs of another map. Returns as push does. */
static int push_map(Core *self, vokujin_builder *builder, Pairs *pairs) {
    for (;;) {
        if (pairs->next == pairs->count && (!pairs->is_more || !pairs_fill(pairs))) return pairs->is_more ? -1 : 1;
        if (pairs->next == pairs->count) return 1;
        vokujin_pair *pair = &pairs->pairs[pairs->next++];
        int pushed = push(self, builder, pairs->keys + pairs->at, pair->key_len, (PyObject *)pairs->map->values.slots[pair->value]);
        if (pushed != 1) return pushed;
        pairs->at += pair->key_len;
    }
}

/* Moves what was added to the map. */
static void end_order(Core *self, vokujin_builder *builder) {
    vokujin_builder_finish(builder, &self->map);
    vokujin_builder_free(builder);
    self->changes++;
}

static PyObject *start_with_list(PyObject *self, PyObject *list) {
    vokujin_builder builder;
    Py_ssize_t taken;
    vokujin_builder_new(&builder);
    int pushed = push_list(CORE(self), &builder, list, &taken);
    end_order(CORE(self), &builder);
    return pushed < 0 ? NULL : PyList_GetSlice(list, taken, PyList_Size(list));
}

static PyObject *start_with_map(PyObject *self, PyTypeObject *definer, PyObject *map) {
    vokujin_builder builder;
    Pairs *pairs = pairs_new(map, definer, ITEMS, false);
    if (!pairs) return NULL;
    /* What ran at that allocation may have changed this map. */
    bool starts = core_len(self) == 0 && bound_of(CORE(map), Py_None, true, &pairs->from) && bound_of(CORE(map), Py_None, true, &pairs->to);
    int pushed = starts ? 1 : PyErr_Occurred() ? -1 : 0;
    if (starts) {
        vokujin_builder_new(&builder);
        pushed = push_map(CORE(self), &builder, pairs);
        end_order(CORE(self), &builder);
    }
    Py_DECREF(pairs);
    return pushed < 0 ? NULL : pushed == 0 ? Py_NewRef(map) : PyTuple_New(0);
}

/* Inserts pairs at the start of a list whose keys rise, or those of a map of the same kind of keys, where this map has none yet.
 * Returns what is left to be inserted. */
static PyObject *core_start(PyObject *self, PyTypeObject *definer, PyObject *const *args, Py_ssize_t count, PyObject *Py_UNUSED(names)) {
    State *state = PyType_GetModuleState(definer);
    if (!takes(count, 1, 1)) return NULL;
    PyObject *pairs = args[0];
    if (core_len(self) != 0) return Py_NewRef(pairs);
    if (PyList_CheckExact(pairs)) return start_with_list(self, pairs);
    if (PyType_IsSubtype(Py_TYPE(pairs), state->read_type) && CORE(pairs)->is_text == CORE(self)->is_text) return start_with_map(self, definer, pairs);
    return Py_NewRef(pairs);
}

/* Removes the pairs of these keys, which are bytes and stored. The list has their values then. */
static void take_all(Core *self, PyObject *list, Py_ssize_t count) {
    for (Py_ssize_t at = 0; at < count; at++) {
        PyObject *key = PyList_GetItem(list, at), *value = NULL;
        take(self, PyBytes_AsString(key), (size_t)PyBytes_Size(key), &value);
        PyList_SetItem(list, at, value);
    }
}

static PyObject *core_remove_prefix(PyObject *self, PyTypeObject *definer, PyObject *const *args, Py_ssize_t count, PyObject *Py_UNUSED(names)) {
    if (!takes(count, 1, 1)) return NULL;
    Pairs *pairs = pairs_new(self, definer, KEYS, false);
    if (pairs) pairs->is_text = false;
    PyObject *list = pairs && bounds_of_prefix(pairs, args[0]) ? PySequence_List((PyObject *)pairs) : NULL;
    Py_XDECREF(pairs);
    PyObject *removed = list ? PyLong_FromSsize_t(PyList_Size(list)) : NULL;
    if (removed) take_all(CORE(self), list, PyList_Size(list));
    Py_XDECREF(list);
    return removed;
}

/* Frozen maps --------------------------------------------------------------------------------------------------------- */

/* Moves the pairs to a frozen map of a class, and returns that. The map is empty then. */
static PyObject *core_freeze(PyObject *self, PyTypeObject *definer, PyObject *const *args, Py_ssize_t count, PyObject *Py_UNUSED(names)) {
    State *state = PyType_GetModuleState(definer);
    if (!takes(count, 1, 1)) return NULL;
    PyTypeObject *type = (PyTypeObject *)args[0];
    if (!PyType_Check(args[0]) || !PyType_IsSubtype(type, state->frozen_type)) return PyErr_Format(PyExc_TypeError, "%R is no frozen map", args[0]);
    allocfunc alloc = (allocfunc)PyType_GetSlot(type, Py_tp_alloc);
    Core *made = CORE(alloc(type, 0));
    if (!made) return NULL;
    vokujin_frozen_new(&made->frozen);
    made->is_frozen = true;
    made->is_text = CORE(self)->is_text;
    made->values.unused = NO_SLOT;
    if (answer(vokujin_freeze(&CORE(self)->map, &made->frozen)) == 1) {
        made->values = CORE(self)->values;
        CORE(self)->values = (Values){.unused = NO_SLOT};
        CORE(self)->changes++;
        return (PyObject *)made;
    }
    Py_DECREF(made);
    return NULL;
}

static PyObject *frozen_count_prefix(PyObject *self, PyTypeObject *definer, PyObject *const *args, Py_ssize_t count, PyObject *Py_UNUSED(names)) {
    if (!takes(count, 1, 1)) return NULL;
    Pairs *pairs = pairs_new(self, definer, KEYS, false);
    if (!pairs) return NULL;
    bool is_counted = bounds_of_prefix(pairs, args[0]);
    size_t found = 0;
    while (is_counted && pairs->is_more && (is_counted = pairs_fill(pairs))) {
        found += pairs->count;
        for (size_t at = 0; at < pairs->count; at++) pairs->at += pairs->pairs[at].key_len;
    }
    Py_DECREF(pairs);
    return is_counted ? PyLong_FromSize_t(found) : NULL;
}

/* One of many keys that are looked up, or of many queries, and what is found: a slot, or NO_SLOT, and the length of its key. */
typedef struct {
    Key key;
    uint64_t slot;
    size_t key_len;
} Query;

/* Some queries, which own what they refer to. */
typedef struct {
    Query *all;
    Py_ssize_t count;
} Queries;

static void queries_drop(Queries queries) {
    while (queries.count > 0) Py_DECREF(queries.all[--queries.count].key.owner);
    PyMem_Free(queries.all);
}

/* Writes the queries of a tuple of keys. */
static bool queries_of(const Core *self, PyObject *tuple, Queries *queries) {
    Py_ssize_t count = PyTuple_Size(tuple);
    *queries = (Queries){PyMem_Malloc((size_t)count * sizeof(Query)), 0};
    if (!queries->all) PyErr_NoMemory();
    while (queries->all && queries->count < count) {
        Query *query = &queries->all[queries->count];
        if (!key_of(self, PyTuple_GetItem(tuple, queries->count), &query->key)) break;
        query->slot = NO_SLOT;
        queries->count++;
    }
    if (queries->all && queries->count == count) return true;
    queries_drop(*queries);
    return false;
}

static uint32_t query_get(const vokujin_frozen *frozen, Query *query) {
    return vokujin_frozen_get(frozen, query->key.bytes, (size_t)query->key.len, &query->slot);
}

static uint32_t query_longest_match(const vokujin_frozen *frozen, Query *query) {
    vokujin_pair found = {NO_SLOT, 0};
    uint32_t code = vokujin_frozen_longest_match(frozen, query->key.bytes, (size_t)query->key.len, &found);
    query->slot = found.value;
    query->key_len = found.key_len;
    return code;
}

/* Answers the queries by a handle of their own, without the interpreter's lock. Returns false with an error. */
static bool queries_answer(const Core *self, Queries queries, uint32_t (*call)(const vokujin_frozen *, Query *)) {
    vokujin_frozen frozen;
    vokujin_frozen_new(&frozen);
    if (answer(vokujin_frozen_share(&self->frozen, &frozen)) != 1) return false;
    uint32_t code = VOKUJIN_DONE;
    Py_BEGIN_ALLOW_THREADS
    for (Py_ssize_t at = 0; at < queries.count && code <= VOKUJIN_ABSENT; at++) code = call(&frozen, &queries.all[at]);
    vokujin_frozen_free(&frozen);
    Py_END_ALLOW_THREADS
    return answer(code) >= 0;
}

/* Returns what is found for a query: its value, or the pair, or without one `other`. */
static PyObject *query_result(const Core *self, const Query *query, bool is_pair, PyObject *other) {
    if (query->slot == NO_SLOT) return Py_NewRef(other);
    PyObject *value = values_get(&self->values, query->slot);
    return is_pair ? pair_object(key_object(self->is_text, query->key.bytes, query->key_len), value) : value;
}

/* Returns a list of what is found for each of the keys, which are in an iterable. */
static PyObject *found_of_all(const Core *self, PyObject *keys, bool is_pair, PyObject *other) {
    Queries queries = {NULL, 0};
    PyObject *tuple = PySequence_Tuple(keys), *list = NULL, *found;
    if (tuple && queries_of(self, tuple, &queries)) {
        if (queries_answer(self, queries, is_pair ? query_longest_match : query_get)) list = PyList_New(queries.count);
        for (Py_ssize_t at = 0; list && at < queries.count; at++) {
            if ((found = query_result(self, &queries.all[at], is_pair, other))) PyList_SetItem(list, at, found);
            else Py_CLEAR(list);
        }
        queries_drop(queries);
    }
    Py_XDECREF(tuple);
    return list;
}

static PyObject *frozen_get_many(PyObject *self, PyObject *const *args, Py_ssize_t count) {
    return takes(count, 1, 2) ? found_of_all(CORE(self), args[0], false, count == 2 ? args[1] : Py_None) : NULL;
}

static PyObject *frozen_longest_match_many(PyObject *self, PyObject *queries) {
    return found_of_all(CORE(self), queries, true, Py_None);
}

/* The module ---------------------------------------------------------------------------------------------------------- */

#define CALL(name) ((PyCFunction)(void (*)(void))name)
#define ENTRY(kind, name, flags, signature, text) {#name, CALL(kind##_##name), flags, #name signature "\n--\n\n" text}
#define PRIVATE(name, flags) {"_" #name, CALL(core_##name), flags, NULL}
/* The flags of a call that needs the type that defines it. */
#define METH_DEFINED (METH_METHOD | METH_FASTCALL | METH_KEYWORDS)
#define COUNT_PREFIX "Returns how many keys start with a prefix, in time in proportion to that number."

/* What a map and a frozen one have in common. */
static PyMethodDef read_methods[] = {
    ENTRY(core, get, METH_FASTCALL, "($self, key, default=None, /)", "Returns the value of a key, or the default if the key is absent."),
    ENTRY(core, longest_match, METH_O, "($self, query, /)", "Returns the pair with the longest key that is a prefix of the query, or None."),
    ENTRY(core, matches, METH_O, "($self, query, /)",
          "Returns a list of the pairs whose keys are prefixes of the query, the shortest first, by one lookup for each and one more."),
    PRIVATE(end, METH_O),
    PRIVATE(range, METH_DEFINED),
    PRIVATE(prefix, METH_DEFINED),
    {NULL, NULL, 0, NULL},
};

static PyMethodDef core_methods[] = {
    ENTRY(core, pop, METH_FASTCALL, "($self, key, default=<no default>, /)",
          "Removes a key and returns its value. If the key is absent it returns the default, or raises KeyError without one."),
    ENTRY(core, setdefault, METH_FASTCALL, "($self, key, default=None, /)", "Returns the value of a key. If the key is absent, the default is inserted first."),
    ENTRY(core, add, METH_FASTCALL, "($self, key, number=1, /)",
          "Adds a number to the value of a key and returns the sum. If the key is absent, the number is inserted."),
    ENTRY(core, compact, METH_NOARGS, "($self, /)",
          "Moves the pairs into the order of their keys in memory, which makes iterations faster. If an allocation fails, it\n"
          "raises MemoryError and the map is unchanged."),
    ENTRY(core, count_prefix, METH_O, "($self, prefix, /)", COUNT_PREFIX),
    ENTRY(core, remove_prefix, METH_DEFINED, "($self, prefix, /)",
          "Removes the pairs whose keys start with a prefix, and returns their number. It copies their keys, then makes a\n"
          "removal for each. If an allocation fails, it raises MemoryError and the map is unchanged."),
    {"clear", core_clear_call, METH_NOARGS, "clear($self, /)\n--\n\nRemoves all pairs."},
    PRIVATE(take_end, METH_O),
    PRIVATE(start, METH_DEFINED),
    PRIVATE(freeze, METH_DEFINED),
    {NULL, NULL, 0, NULL},
};

static PyMethodDef frozen_methods[] = {
    ENTRY(frozen, count_prefix, METH_DEFINED, "($self, prefix, /)", COUNT_PREFIX),
    ENTRY(frozen, get_many, METH_FASTCALL, "($self, keys, default=None, /)",
          "Returns a list of the values of these keys, with the default for those that are absent. Other threads run while the\n"
          "keys are looked up."),
    ENTRY(frozen, longest_match_many, METH_O, "($self, queries, /)",
          "Returns a list of the longest_match of each query. Other threads run while they are looked up."),
    {NULL, NULL, 0, NULL},
};

static PyType_Slot read_slots[] = {
    {Py_tp_dealloc, core_dealloc},
    {Py_tp_traverse, core_traverse},
    {Py_tp_clear, core_clear},
    {Py_tp_methods, read_methods},
    {Py_mp_length, core_len},
    {Py_mp_subscript, core_subscript},
    {Py_sq_contains, core_contains},
    {0, NULL},
};

#define SAME_MEMORY {Py_tp_dealloc, core_dealloc}, {Py_tp_traverse, core_traverse}, {Py_tp_clear, core_clear}
static PyType_Slot core_slots[] = {
    SAME_MEMORY, {Py_tp_new, core_new}, {Py_tp_methods, core_methods}, {Py_mp_ass_subscript, core_ass_subscript}, {0, NULL},
};
static PyType_Slot text_slots[] = {SAME_MEMORY, {Py_tp_new, text_new}, {0, NULL}};
static PyType_Slot frozen_slots[] = {SAME_MEMORY, {Py_tp_methods, frozen_methods}, {0, NULL}};

static PyType_Slot pairs_slots[] = {
    {Py_tp_dealloc, pairs_dealloc}, {Py_tp_traverse, pairs_traverse}, {Py_tp_iter, PyObject_SelfIter}, {Py_tp_iternext, pairs_next}, {0, NULL},
};

#define OF_PAIRS (Py_TPFLAGS_DEFAULT | Py_TPFLAGS_HAVE_GC)
static PyType_Spec read_spec = {"vokujin._core.ReadCore", sizeof(Core), 0, OF_PAIRS | Py_TPFLAGS_BASETYPE | Py_TPFLAGS_DISALLOW_INSTANTIATION, read_slots};
static PyType_Spec core_spec = {"vokujin._core.BytesCore", sizeof(Core), 0, OF_PAIRS | Py_TPFLAGS_BASETYPE, core_slots};
static PyType_Spec text_spec = {"vokujin._core.TextCore", sizeof(Core), 0, OF_PAIRS | Py_TPFLAGS_BASETYPE, text_slots};
static PyType_Spec frozen_spec = {"vokujin._core.FrozenCore", sizeof(Core), 0, OF_PAIRS | Py_TPFLAGS_BASETYPE | Py_TPFLAGS_DISALLOW_INSTANTIATION, frozen_slots};
static PyType_Spec pairs_spec = {"vokujin._core.Pairs", sizeof(Pairs), 0, OF_PAIRS | Py_TPFLAGS_DISALLOW_INSTANTIATION, pairs_slots};

/* Adds a type that derives from another, if there is one, and returns it. */
static PyTypeObject *add_type(PyObject *module, PyType_Spec *spec, PyTypeObject *base) {
    PyObject *bases = base ? PyTuple_Pack(1, base) : NULL;
    PyObject *type = base && !bases ? NULL : PyType_FromModuleAndSpec(module, spec, bases);
    Py_XDECREF(bases);
    if (type && PyModule_AddType(module, (PyTypeObject *)type) < 0) Py_CLEAR(type);
    return (PyTypeObject *)type;
}

/* Adds the types of maps: what is read, from which maps and frozen ones derive, and from maps of bytes those of strings. */
static int add_maps(PyObject *module, State *state) {
    PyTypeObject *read = state->read_type = add_type(module, &read_spec, NULL);
    PyTypeObject *core = read ? add_type(module, &core_spec, read) : NULL;
    PyTypeObject *text = core ? add_type(module, &text_spec, core) : NULL;
    state->frozen_type = text ? add_type(module, &frozen_spec, read) : NULL;
    Py_XDECREF(core);
    Py_XDECREF(text);
    return state->frozen_type ? 0 : -1;
}

static int module_exec(PyObject *module) {
    State *state = PyModule_GetState(module);
    if (vokujin_size() != sizeof(vokujin_map) || vokujin_frozen_size() != sizeof(vokujin_frozen) || vokujin_builder_size() != sizeof(vokujin_builder)) {
        PyErr_SetString(PyExc_ImportError, "the library and the header that this module was built from differ");
        return -1;
    }
    state->pairs_type = (PyTypeObject *)PyType_FromModuleAndSpec(module, &pairs_spec, NULL);
    if (!state->pairs_type || add_maps(module, state) < 0) return -1;
    if (PyModule_AddIntMacro(module, KEYS) < 0 || PyModule_AddIntMacro(module, VALUES) < 0) return -1;
    return PyModule_AddIntMacro(module, ITEMS);
}

static int module_traverse(PyObject *module, visitproc visit, void *arg) {
    State *state = PyModule_GetState(module);
    Py_VISIT(state->pairs_type);
    Py_VISIT(state->read_type);
    Py_VISIT(state->frozen_type);
    return 0;
}

static int module_clear(PyObject *module) {
    State *state = PyModule_GetState(module);
    Py_CLEAR(state->pairs_type);
    Py_CLEAR(state->read_type);
    Py_CLEAR(state->frozen_type);
    return 0;
}

static void module_free(void *module) {
    module_clear(module);
}

static PyModuleDef_Slot module_slots[] = {{Py_mod_exec, module_exec}, {0, NULL}};

static struct PyModuleDef module = {
    .m_base = PyModuleDef_HEAD_INIT,
    .m_name = "vokujin._core",
    .m_size = sizeof(State),
    .m_slots = module_slots,
    .m_traverse = module_traverse,
    .m_clear = module_clear,
    .m_free = module_free,
};

PyMODINIT_FUNC PyInit__core(void) {
    return PyModuleDef_Init(&module);
}
