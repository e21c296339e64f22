/* Values, records and operations, from Python and to it. */
#include "common.h"

/* ---- Bytes ---- */

int arena_grow(arena *to, size_t more){
  if( more > SIZE_MAX / 4 - to->n ) return 0;
  size_t room = to->room < 128 ? 256 : 2 * to->room;
  if( room < to->n + more ) room = to->n + more;
  uint8_t *grown = PyMem_RawRealloc(to->at, room);
  if( grown == NULL ) return 0;
  to->at = grown;
  to->room = room;
  return 1;
}

/* The same, with the error set. */
static int has_room(arena *to, size_t more){
  if( arena_has_room(to, more) ) return 1;
  PyErr_NoMemory();
  return 0;
}

/* ---- Arguments ---- */

static int is_other(PyObject *from, const char *what){
  PyErr_Format(PyExc_TypeError, "%s, not %.200s", what, Py_TYPE(from)->tp_name);
  return 0;
}

int text_of(PyObject *from, text *to){
  if( !PyUnicode_Check(from) ) return is_other(from, "a name, a command or a filter is a str");
  Py_ssize_t n;
  to->at = PyUnicode_AsUTF8AndSize(from, &n);
  to->n = (size_t)n;
  return to->at != NULL;
}

int number_of(PyObject *from, int bits, uint64_t *to){
  if( !PyLong_Check(from) ) return is_other(from, "a number is an int");
  *to = PyLong_AsUnsignedLongLong(from);
  int is_in_range = !(*to == (uint64_t)-1 && PyErr_Occurred());
  if( is_in_range && (bits == 64 || *to >> bits == 0) ) return 1;
  PyErr_Clear();
  PyErr_Format(PyExc_ValueError, "%R is not a number of %d bits", from, bits);
  return 0;
}

int word_of(PyObject *from, uint32_t *to){
  uint64_t number;
  if( !number_of(from, 32, &number) ) return 0;
  *to = (uint32_t)number;
  return 1;
}

int has_arguments(Py_ssize_t given, Py_ssize_t wanted){
  if( given == wanted ) return 1;
  PyErr_Format(PyExc_TypeError, "%zd arguments, not %zd", given, wanted);
  return 0;
}

PyObject *content_of(PyObject *from){
  if( PyBytes_Check(from) ) return Py_NewRef(from);
  int is_view = PyMemoryView_Check(from) && PyMemoryView_GET_BUFFER(from)->itemsize == 1;
  if( is_view || PyByteArray_Check(from) ) return PyBytes_FromObject(from);
  is_other(from, "a blob is bytes, a bytearray or a memoryview of single bytes");
  return NULL;
}

/* ---- Values to records ---- */

static int put_sized(arena *to, uint32_t type, const void *bytes, Py_ssize_t n){
  if( n > 0x7fffffff ){
    PyErr_SetString(PyExc_OverflowError, "a text or a blob has at most 1,000,000,000 bytes");
    return 0;
  }
  if( !has_room(to, CHANGECAP_FIELD_MAX(n)) ) return 0;
  to->n += changecap_put_bytes(to->at + to->n, type, bytes, (size_t)n);
  return 1;
}

static int put_integer(arena *to, PyObject *value){
  int overflow;
  long long number = PyLong_AsLongLongAndOverflow(value, &overflow);
  if( overflow ){
    PyErr_SetString(PyExc_OverflowError, "an integer has 64 bits");
    return 0;
  }
  if( number == -1 && PyErr_Occurred() ) return 0;
  if( !has_room(to, CHANGECAP_FIELD_MAX(0)) ) return 0;
  to->n += changecap_put_int(to->at + to->n, number);
  return 1;
}

/* Puts the field of a value last. */
static int put_value(arena *to, PyObject *value){
  if( PyLong_Check(value) ) return put_integer(to, value);
  if( PyUnicode_Check(value) ){
    Py_ssize_t n;
    const char *bytes = PyUnicode_AsUTF8AndSize(value, &n);
    return bytes != NULL && put_sized(to, CHANGECAP_TEXT, bytes, n);
  }
  if( value == Py_None ){
    if( !has_room(to, CHANGECAP_FIELD_MAX(0)) ) return 0;
    to->n += changecap_put_null(to->at + to->n);
    return 1;
  }
  if( !PyBytes_Check(value) && !PyByteArray_Check(value) && !PyMemoryView_Check(value) )
    return is_other(value, "a value is None, int, str or bytes");
  PyObject *content = content_of(value);
  if( content == NULL ) return 0;
  int is_put = put_sized(to, CHANGECAP_BLOB, PyBytes_AS_STRING(content), PyBytes_GET_SIZE(content));
  Py_DECREF(content);
  return is_put;
}

/* A tuple of the values of a row or a key, as a new reference. */
static PyObject *tuple_of(PyObject *values, const char *what){
  if( PyTuple_Check(values) ) return Py_NewRef(values);
  if( PyList_Check(values) ) return PyList_AsTuple(values);
  int is_sequence = 0;
  if( !PyUnicode_Check(values) && !PyBytes_Check(values) && !PyByteArray_Check(values) && !PyMemoryView_Check(values) )
    is_sequence = PyObject_IsInstance(values, sequence_class);
  if( is_sequence > 0 ) return PySequence_Tuple(values);
  if( is_sequence == 0 ) is_other(values, what);
  return NULL;
}

int put_record(arena *to, PyObject *values, const char *what){
  PyObject *all = tuple_of(values, what);
  if( all == NULL ) return 0;
  int is_put = 1;
  for(Py_ssize_t i = 0; is_put && i < PyTuple_GET_SIZE(all); i++) is_put = put_value(to, PyTuple_GET_ITEM(all, i));
  Py_DECREF(all);
  return is_put;
}

/* The first column that no table has. It stands for any other such. */
enum { NO_COLUMN = 2000 };

/* The column of an item of the new values, or -1. */
static long column_of(PyObject *item){
  uint64_t column;
  if( !PyTuple_Check(item) || PyTuple_GET_SIZE(item) != 2 ){
    PyErr_SetString(PyExc_TypeError, "the items of a mapping are pairs");
    return -1;
  }
  if( !number_of(PyTuple_GET_ITEM(item, 0), 64, &column) ) return -1;
  return column < NO_COLUMN ? (long)column : NO_COLUMN;
}

/* Puts the fields up to the last column that has a value among the items. */
static int put_items(arena *to, PyObject *items){
  long last = -1;
  Py_ssize_t count = PyList_GET_SIZE(items);
  for(Py_ssize_t i = 0; i < count; i++){
    long column = column_of(PyList_GET_ITEM(items, i));
    if( column < 0 ) return 0;
    if( column > last ) last = column;
  }
  PyObject **values = PyMem_Calloc((size_t)last + 2, sizeof *values);
  if( values == NULL ){
    PyErr_NoMemory();
    return 0;
  }
  for(Py_ssize_t i = 0; i < count; i++){
    PyObject *item = PyList_GET_ITEM(items, i);
    values[column_of(item)] = PyTuple_GET_ITEM(item, 1);
  }
  int is_put = 1;
  for(long column = 0; is_put && column <= last; column++){
    if( values[column] ){
      is_put = put_value(to, values[column]);
    }else if( (is_put = has_room(to, CHANGECAP_FIELD_MAX(0))) ){
      to->n += changecap_put_undefined(to->at + to->n);
    }
  }
  PyMem_Free(values);
  return is_put;
}

int put_assignments(arena *to, PyObject *fields){
  int is_mapping = PyDict_Check(fields) ? 1 : PyObject_IsInstance(fields, mapping_class);
  if( is_mapping < 0 ) return 0;
  if( !is_mapping ) return is_other(fields, "the new values are a dict, as in {1: 'x'}");
  /* The list is this function's alone. */
  PyObject *items = PyMapping_Items(fields);
  if( items == NULL ) return 0;
  int is_put = put_items(to, items);
  Py_DECREF(items);
  return is_put;
}

int put_named(arena *to, PyObject *row, uint64_t *id){
  *id = 0;
  if( !PyLong_Check(row) ) return put_record(to, row, "a key is a tuple or a list of values, as in (1,)");
  int is_id = PyObject_IsInstance(row, row_id_class);
  if( is_id > 0 ) return number_of(row, 64, id);
  if( is_id == 0 )
    PyErr_Format(PyExc_TypeError, "a row is named by its key, as in (%R,), or by its id, as in RowId(%R)", row, row);
  return 0;
}

/* ---- Records to values ---- */

PyObject *next_value(const uint8_t **at, int *is_undefined){
  uint8_t type = *(*at)++, group;
  *is_undefined = type == CHANGECAP_UNDEFINED;
  if( *is_undefined ) return NULL;
  if( type == CHANGECAP_NULL ) return Py_NewRef(Py_None);
  if( type == CHANGECAP_INTEGER ){
    uint64_t number = 0;
    for(int i = 0; i < 8; i++) number = number << 8 | *(*at)++;
    return PyLong_FromLongLong((int64_t)number);
  }
  size_t n = 0;
  do{
    group = *(*at)++;
    n = n << 7 | (group & 0x7f);
  }while( group & 0x80 );
  const char *bytes = (const char *)*at;
  *at += n;
  if( type == CHANGECAP_TEXT ) return PyUnicode_DecodeUTF8(bytes, (Py_ssize_t)n, NULL);
  return PyBytes_FromStringAndSize(bytes, (Py_ssize_t)n);
}

/* How many bytes a field has. */
static size_t field_length(const uint8_t *at){
  size_t n = 0, i = 1;
  if( *at == CHANGECAP_INTEGER ) return 9;
  if( *at != CHANGECAP_TEXT && *at != CHANGECAP_BLOB ) return 1;
  do{
    n = n << 7 | (at[i] & 0x7f);
  }while( at[i++] & 0x80 );
  return i + n;
}

PyObject *values_of(const uint8_t *at, size_t n){
  Py_ssize_t count = 0;
  for(const uint8_t *it = at; it < at + n; it += field_length(it)) count++;
  PyObject *made = PyTuple_New(count);
  if( made == NULL ) return NULL;
  for(Py_ssize_t i = 0; i < count; i++){
    int is_undefined;
    PyObject *value = next_value(&at, &is_undefined);
    if( is_undefined ) value = Py_NewRef(Py_None);
    if( value == NULL ){
      Py_DECREF(made);
      return NULL;
    }
    PyTuple_SET_ITEM(made, i, value);
  }
  return made;
}

PyObject *row_id_of(uint64_t id){
  return PyObject_CallFunction(row_id_class, "K", (unsigned long long)id);
}
