/* Nodes of messages as Python's values: the class Decoder of _values.py, in C. The package takes it where it was built.
 *
 * Nodes come from the library, yet nothing is read that a caller did not hand over: each node and each string is looked for in
 * its room first. */
#define PY_SSIZE_T_CLEAN
#include <Python.h>
#include <stdint.h>
#include <string.h>

/* struct fastcat_node */
struct node {
  uint32_t kind, instruction;
  uint64_t number;
  int64_t mantissa;
  uint32_t length;
  int32_t exponent;
};

_Static_assert(sizeof(struct node) == 32, "a node has 32 bytes");

/* enum fastcat_kind */
enum { MESSAGE, ABSENT, UINT32, UINT64, INT32, INT64, DECIMAL, ASCII, UNICODE, BYTES, GROUP, SEQUENCE, ELEMENT };

struct segment;

struct field {
  PyObject *name;
  struct segment *inside; /* of a group or a sequence, else NULL */
};

struct segment {
  PyObject *empty; /* a dict of its names, of which each is None; NULL where segments are lists of pairs */
  Py_ssize_t count;
  struct field fields[];
};

struct template {
  uint32_t number;
  PyObject *message, *packed; /* a message, and one of a packet, whose packet and fields are None */
  struct segment *segment;
};

/* Decimals and short texts come again: each is kept where the next of its hash takes its place. */
enum { KNOWN_BITS = 10, KNOWN = 1 << KNOWN_BITS, SHORT = 16 };

struct known_decimal {
  int64_t mantissa;
  int32_t exponent;
  PyObject *value; /* or NULL */
};

struct known_text {
  uint64_t words[2];
  uint32_t length;
  PyObject *value; /* or NULL */
};

/* A long string that is told by its place again is one value. */
enum { LONG = 64, PLACES = 64 };

struct placed {
  uint64_t number;
  uint32_t length, kind;
  PyObject *value; /* or NULL */
};

typedef struct {
  PyObject_HEAD
  PyObject *decimal; /* makes a decimal of its text; NULL: decimals are pairs */
  Py_ssize_t count;
  struct template *templates; /* by their numbers */
  struct template *last;
  PyObject *packet, *fields; /* the names of members */
  struct known_decimal decimals[KNOWN];
  struct known_text texts[KNOWN];
} Decoder;

/* What is read. */
struct tape {
  Decoder *decoder;
  const struct node *at, *end;
  const char *bytes;
  uint64_t length;
  struct placed *places;
};

static void *no_message(void) {
  PyErr_SetString(PyExc_ValueError, "the nodes are not those of messages of these templates");
  return NULL;
}

static unsigned place_of(uint64_t it) { return (unsigned)(it * UINT64_C(0x9E3779B97F4A7C15) >> (64 - KNOWN_BITS)); }

/* ---- values */

/* 450025 and -2 as "450025E-2". */
static PyObject *text_of_decimal(int64_t mantissa, int32_t exponent) {
  char text[40], *end = text + sizeof text, *at = end;
  uint64_t size = exponent < 0 ? 0 - (uint64_t)exponent : (uint64_t)exponent;
  do *--at = (char)('0' + size % 10);
  while (size /= 10);
  if (exponent < 0) *--at = '-';
  *--at = 'E';
  size = mantissa < 0 ? 0 - (uint64_t)mantissa : (uint64_t)mantissa;
  do *--at = (char)('0' + size % 10);
  while (size /= 10);
  if (mantissa < 0) *--at = '-';
  PyObject *made = PyUnicode_New(end - at, 127);
  if (made) memcpy(PyUnicode_1BYTE_DATA(made), at, (size_t)(end - at));
  return made;
}

static PyObject *pair_of(int64_t mantissa, int32_t exponent) {
  PyObject *first = PyLong_FromLongLong(mantissa), *second = first ? PyLong_FromLong(exponent) : NULL;
  PyObject *pair = second ? PyTuple_New(2) : NULL;
  if (!pair) {
    Py_XDECREF(first);
    Py_XDECREF(second);
    return NULL;
  }
  PyTuple_SET_ITEM(pair, 0, first);
  PyTuple_SET_ITEM(pair, 1, second);
  return pair;
}

static PyObject *decimal_of(Decoder *decoder, int64_t mantissa, int32_t exponent) {
  if (!decoder->decimal) return pair_of(mantissa, exponent);
  struct known_decimal *known = &decoder->decimals[place_of((uint64_t)mantissa + ((uint64_t)(uint32_t)exponent << 56))];
  if (known->value && known->mantissa == mantissa && known->exponent == exponent) return Py_NewRef(known->value);
  PyObject *text = text_of_decimal(mantissa, exponent);
  if (!text) return NULL;
  PyObject *value = PyObject_CallOneArg(decoder->decimal, text);
  Py_DECREF(text);
  if (!value) return NULL;
  Py_XSETREF(known->value, Py_NewRef(value));
  known->mantissa = mantissa;
  known->exponent = exponent;
  return value;
}

static PyObject *string_of(uint32_t kind, const char *bytes, uint32_t length) {
  if (kind == BYTES) return PyBytes_FromStringAndSize(bytes, length);
  return PyUnicode_DecodeUTF8(bytes, length, NULL);
}

static PyObject *short_text_of(Decoder *decoder, const char *bytes, uint32_t length) {
  uint64_t words[2] = {0, 0};
  memcpy(words, bytes, length);
  struct known_text *known = &decoder->texts[place_of(words[0] ^ (words[1] << 7 | words[1] >> 57) ^ (uint64_t)length << 60)];
  if (known->value && known->words[0] == words[0] && known->words[1] == words[1] && known->length == length)
    return Py_NewRef(known->value);
  PyObject *value = string_of(ASCII, bytes, length);
  if (!value) return NULL;
  Py_XSETREF(known->value, Py_NewRef(value));
  memcpy(known->words, words, sizeof words);
  known->length = length;
  return value;
}

static PyObject *long_string_of(struct tape *tape, const struct node *node, const char *bytes) {
  struct placed *placed = &tape->places[(node->number ^ node->kind) % PLACES];
  if (placed->value && placed->number == node->number && placed->length == node->length && placed->kind == node->kind)
    return Py_NewRef(placed->value);
  PyObject *value = string_of(node->kind, bytes, node->length);
  if (!value) return NULL;
  Py_XSETREF(placed->value, Py_NewRef(value));
  placed->number = node->number;
  placed->length = node->length;
  placed->kind = node->kind;
  return value;
}

static PyObject *segment_of(struct tape *tape, const struct segment *segment);

static PyObject *sequence_of(struct tape *tape, const struct segment *inside, uint64_t count) {
  /* (each element has a node of its own in front) */
  if (count > (uint64_t)(tape->end - tape->at)) return no_message();
  PyObject *list = PyList_New((Py_ssize_t)count);
  for (Py_ssize_t i = 0; list && i < (Py_ssize_t)count; i++) {
    PyObject *element = NULL;
    if (tape->at < tape->end && tape->at->kind == ELEMENT) {
      tape->at++;
      element = segment_of(tape, inside);
    } else {
      no_message();
    }
    if (element) PyList_SET_ITEM(list, i, element);
    else Py_CLEAR(list);
  }
  return list;
}

/* The value of a node, and behind it of those that are its own. */
static PyObject *value_of(struct tape *tape, const struct node *node, const struct segment *inside) {
  switch (node->kind) {
  case ABSENT: Py_RETURN_NONE;
  case UINT32: case UINT64: return PyLong_FromUnsignedLongLong(node->number);
  case INT32: case INT64: return PyLong_FromLongLong(node->mantissa);
  case DECIMAL: return decimal_of(tape->decoder, node->mantissa, node->exponent);
  case ASCII: case UNICODE: case BYTES: {
    if (node->number > tape->length || node->length > tape->length - node->number) return no_message();
    const char *bytes = tape->bytes + node->number;
    if (node->length >= LONG) return long_string_of(tape, node, bytes);
    if (node->kind != BYTES && node->length <= SHORT) return short_text_of(tape->decoder, bytes, node->length);
    return string_of(node->kind, bytes, node->length);
  }
  case GROUP: return inside ? segment_of(tape, inside) : no_message();
  case SEQUENCE: return inside ? sequence_of(tape, inside, node->number) : no_message();
  default: return no_message();
  }
}

static PyObject *dict_of(struct tape *tape, const struct segment *segment) {
  PyObject *dict = PyDict_Copy(segment->empty);
  for (const struct field *field = segment->fields, *end = field + segment->count; dict && field < end; field++) {
    if (tape->at == tape->end) {
      Py_DECREF(dict);
      return no_message();
    }
    const struct node *node = tape->at++;
    if (node->kind == ABSENT) continue;
    PyObject *value = value_of(tape, node, field->inside);
    if (!value || PyDict_SetItem(dict, field->name, value) < 0) Py_CLEAR(dict);
    Py_XDECREF(value);
  }
  return dict;
}

static PyObject *pairs_of(struct tape *tape, const struct segment *segment) {
  PyObject *list = PyList_New(segment->count);
  for (Py_ssize_t i = 0; list && i < segment->count; i++) {
    PyObject *value = tape->at == tape->end ? no_message() : value_of(tape, tape->at++, segment->fields[i].inside);
    PyObject *pair = value ? PyTuple_New(2) : NULL;
    if (!pair) {
      Py_XDECREF(value);
      Py_CLEAR(list);
      break;
    }
    PyTuple_SET_ITEM(pair, 0, Py_NewRef(segment->fields[i].name));
    PyTuple_SET_ITEM(pair, 1, value);
    PyList_SET_ITEM(list, i, pair);
  }
  return list;
}

static PyObject *segment_of(struct tape *tape, const struct segment *segment) {
  return segment->empty ? dict_of(tape, segment) : pairs_of(tape, segment);
}

/* ---- messages */

static struct template *template_of(Decoder *decoder, uint32_t number) {
  if (decoder->last && decoder->last->number == number) return decoder->last;
  Py_ssize_t first = 0, behind = decoder->count;
  while (first < behind) {
    Py_ssize_t middle = first + (behind - first) / 2;
    struct template *it = &decoder->templates[middle];
    if (it->number == number) return decoder->last = it;
    if (it->number < number) first = middle + 1;
    else behind = middle;
  }
  return NULL;
}

static PyObject *message_of(struct tape *tape, PyObject *packet) {
  Decoder *decoder = tape->decoder;
  const struct node *node = tape->at++;
  struct template *template = node->kind == MESSAGE ? template_of(decoder, node->instruction) : NULL;
  if (!template) return no_message();
  PyObject *fields = segment_of(tape, template->segment);
  if (!fields) return NULL;
  PyObject *message = PyDict_Copy(packet ? template->packed : template->message);
  if (message && (PyDict_SetItem(message, decoder->fields, fields) < 0 ||
                  (packet && PyDict_SetItem(message, decoder->packet, packet) < 0)))
    Py_CLEAR(message);
  Py_DECREF(fields);
  return message;
}

static PyObject *messages_of(struct tape *tape, PyObject *packet) {
  PyObject *list = PyList_New(0);
  while (list && tape->at < tape->end) {
    PyObject *message = message_of(tape, packet);
    if (!message || PyList_Append(list, message) < 0) Py_CLEAR(list);
    Py_XDECREF(message);
  }
  return list;
}

static PyObject *decode(Decoder *self, PyObject *const *arguments, Py_ssize_t many) {
  if (many != 5) {
    PyErr_SetString(PyExc_TypeError, "decode: nodes, their count, bytes, their count, and a packet or None are wanted");
    return NULL;
  }
  Py_ssize_t count = PyLong_AsSsize_t(arguments[1]), length = PyLong_AsSsize_t(arguments[3]);
  if ((count == -1 || length == -1) && PyErr_Occurred()) return NULL;
  Py_buffer nodes, bytes;
  if (PyObject_GetBuffer(arguments[0], &nodes, PyBUF_SIMPLE) < 0) return NULL;
  if (PyObject_GetBuffer(arguments[2], &bytes, PyBUF_SIMPLE) < 0) {
    PyBuffer_Release(&nodes);
    return NULL;
  }
  PyObject *list = NULL;
  if (count < 0 || length < 0 || count > nodes.len / (Py_ssize_t)sizeof(struct node) || length > bytes.len ||
      (uintptr_t)nodes.buf % _Alignof(struct node) != 0) {
    PyErr_SetString(PyExc_ValueError, "decode: a room has fewer nodes or bytes, or is not aligned");
  } else {
    struct placed places[PLACES];
    memset(places, 0, sizeof places);
    const struct node *first = nodes.buf;
    struct tape tape = {self, first, count ? first + count : first, bytes.buf, (uint64_t)length, places};
    list = messages_of(&tape, arguments[4] == Py_None ? NULL : arguments[4]);
    for (int i = 0; i < PLACES; i++) Py_XDECREF(places[i].value);
  }
  PyBuffer_Release(&nodes);
  PyBuffer_Release(&bytes);
  return list;
}

/* ---- templates */

static void free_segment(struct segment *segment) {
  if (!segment) return;
  for (Py_ssize_t i = 0; i < segment->count; i++) {
    Py_XDECREF(segment->fields[i].name);
    free_segment(segment->fields[i].inside);
  }
  Py_XDECREF(segment->empty);
  PyMem_Free(segment);
}

/* A tuple of a name and something else. */
static int name_and(PyObject *pair, PyObject **name, PyObject **other) {
  if (PyTuple_Check(pair)) return PyArg_ParseTuple(pair, "UO", name, other) ? 0 : -1;
  PyErr_SetString(PyExc_TypeError, "a layout has tuples of a name and what is inside");
  return -1;
}

/* Of a tuple of pairs: a name, and such a tuple or None. */
static struct segment *segment_in(PyObject *layout, int is_pairs) {
  if (!PyTuple_Check(layout)) {
    PyErr_SetString(PyExc_TypeError, "a layout is a tuple");
    return NULL;
  }
  Py_ssize_t count = PyTuple_GET_SIZE(layout);
  struct segment *segment = PyMem_Calloc(1, sizeof *segment + (size_t)count * sizeof *segment->fields);
  if (!segment) {
    PyErr_NoMemory();
    return NULL;
  }
  segment->count = count;
  if (!is_pairs && !(segment->empty = PyDict_New())) goto failed;
  for (Py_ssize_t i = 0; i < count; i++) {
    PyObject *name, *inside;
    if (name_and(PyTuple_GET_ITEM(layout, i), &name, &inside) < 0) goto failed;
    /* (a name that is one object is found faster in a dict) */
    segment->fields[i].name = Py_NewRef(name);
    PyUnicode_InternInPlace(&segment->fields[i].name);
    if (inside != Py_None && !(segment->fields[i].inside = segment_in(inside, is_pairs))) goto failed;
    if (segment->empty && PyDict_SetItem(segment->empty, segment->fields[i].name, Py_None) < 0) goto failed;
  }
  return segment;
failed:
  free_segment(segment);
  return NULL;
}

static int set(PyObject *dict, const char *name, PyObject *value) {
  PyObject *key = PyUnicode_InternFromString(name);
  int done = key ? PyDict_SetItem(dict, key, value) : -1;
  Py_XDECREF(key);
  return done;
}

static int template_in(struct template *template, PyObject *number, PyObject *told, int is_pairs) {
  PyObject *name, *layout;
  unsigned long of = PyLong_AsUnsignedLong(number);
  if (PyErr_Occurred() || name_and(told, &name, &layout) < 0) return -1;
  if (of > UINT32_MAX) {
    PyErr_SetString(PyExc_OverflowError, "an identifier is below 2^32");
    return -1;
  }
  template->number = (uint32_t)of;
  if (!(template->message = PyDict_New()) || !(template->packed = PyDict_New())) return -1;
  if (set(template->packed, "packet", Py_None) < 0) return -1;
  for (int i = 0; i < 2; i++) {
    PyObject *message = i ? template->packed : template->message;
    if (set(message, "template", name) < 0 || set(message, "id", number) < 0 || set(message, "fields", Py_None) < 0) return -1;
  }
  return (template->segment = segment_in(layout, is_pairs)) ? 0 : -1;
}

static int by_number(const void *one, const void *other) {
  uint32_t a = ((const struct template *)one)->number, b = ((const struct template *)other)->number;
  return (a > b) - (a < b);
}

static void deallocate(Decoder *self) {
  for (Py_ssize_t i = 0; i < self->count; i++) {
    Py_XDECREF(self->templates[i].message);
    Py_XDECREF(self->templates[i].packed);
    free_segment(self->templates[i].segment);
  }
  PyMem_Free(self->templates);
  for (int i = 0; i < KNOWN; i++) {
    Py_XDECREF(self->decimals[i].value);
    Py_XDECREF(self->texts[i].value);
  }
  Py_XDECREF(self->decimal);
  Py_XDECREF(self->packet);
  Py_XDECREF(self->fields);
  PyTypeObject *type = Py_TYPE(self);
  type->tp_free((PyObject *)self);
  Py_DECREF(type);
}

static PyObject *new_decoder(PyTypeObject *type, PyObject *arguments, PyObject *named) {
  static char *names[] = {"layouts", "decimal", "is_pairs", NULL};
  PyObject *layouts, *decimal, *number, *told;
  int is_pairs;
  Py_ssize_t at = 0;
  if (!PyArg_ParseTupleAndKeywords(arguments, named, "O!Op", names, &PyDict_Type, &layouts, &decimal, &is_pairs)) return NULL;
  Decoder *self = (Decoder *)type->tp_alloc(type, 0);
  if (!self) return NULL;
  self->decimal = decimal == Py_None ? NULL : Py_NewRef(decimal);
  self->packet = PyUnicode_InternFromString("packet");
  self->fields = PyUnicode_InternFromString("fields");
  size_t room = (size_t)PyDict_GET_SIZE(layouts);
  if (!self->packet || !self->fields) goto failed;
  if (!(self->templates = PyMem_Calloc(room ? room : 1, sizeof *self->templates))) {
    PyErr_NoMemory();
    goto failed;
  }
  while (PyDict_Next(layouts, &at, &number, &told))
    if (template_in(&self->templates[self->count++], number, told, is_pairs) < 0) goto failed;
  qsort(self->templates, (size_t)self->count, sizeof *self->templates, by_number);
  return (PyObject *)self;
failed:
  Py_DECREF(self);
  return NULL;
}

static PyMethodDef methods[] = {
    {"decode", (PyCFunction)(void (*)(void))decode, METH_FASTCALL, "The messages of nodes, as Decoder of _values.py has them."},
    {NULL, NULL, 0, NULL}};

static PyType_Slot slots[] = {{Py_tp_new, new_decoder}, {Py_tp_dealloc, deallocate}, {Py_tp_methods, methods}, {0, NULL}};

static PyType_Spec spec = {"fastcat._nodes.Decoder", sizeof(Decoder), 0, Py_TPFLAGS_DEFAULT, slots};

static int fill(PyObject *module) {
  PyObject *type = PyType_FromModuleAndSpec(module, &spec, NULL);
  if (!type) return -1;
  int done = PyModule_AddObjectRef(module, "Decoder", type);
  Py_DECREF(type);
  return done;
}

static PyModuleDef_Slot parts[] = {{Py_mod_exec, fill}, {0, NULL}};

static struct PyModuleDef definition = {PyModuleDef_HEAD_INIT, "_nodes", NULL, 0, NULL, parts, NULL, NULL, NULL};

PyMODINIT_FUNC PyInit__nodes(void) { return PyModuleDef_Init(&definition); }
