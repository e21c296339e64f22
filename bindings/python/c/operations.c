/* The operations of a batch or a transaction, and the rows that are read. */
#include "common.h"

void operations_free(operations *it){
  PyMem_RawFree(it->at);
  arena_free(&it->bytes);
}

/* Room for a further operation, or NULL with the error set. */
static operation *next_operation(operations *to){
  if( to->n == to->room ){
    size_t room = to->room ? 2 * to->room : 4;
    operation *grown = room > SIZE_MAX / 2 / sizeof *grown ? NULL : PyMem_RawRealloc(to->at, room * sizeof *grown);
    if( grown == NULL ){
      PyErr_NoMemory();
      return NULL;
    }
    to->at = grown;
    to->room = room;
  }
  operation *made = &to->at[to->n];
  memset(made, 0, sizeof *made);
  return made;
}

static int put_name(operations *to, PyObject *table, operation *made){
  text name;
  if( !text_of(table, &name) ) return 0;
  if( !arena_has_room(&to->bytes, name.n) ){
    PyErr_NoMemory();
    return 0;
  }
  made->table = to->bytes.n;
  made->n = name.n;
  arena_put(&to->bytes, name.at, name.n);
  return 1;
}

static int put_row(operations *to, PyObject *values, operation *made){
  made->fields = to->bytes.n;
  if( !put_record(&to->bytes, values, "a row is a tuple or a list of values, as in (1,)") ) return 0;
  made->len = to->bytes.n - made->fields;
  return 1;
}

static int put_key(operations *to, PyObject *row, operation *made){
  made->key = to->bytes.n;
  if( !put_named(&to->bytes, row, &made->id) ) return 0;
  made->m = to->bytes.n - made->key;
  return 1;
}

static int put_fields(operations *to, PyObject *fields, operation *made){
  made->fields = to->bytes.n;
  if( !put_assignments(&to->bytes, fields) ) return 0;
  made->len = to->bytes.n - made->fields;
  return 1;
}

/* The operation of a word, or 0; and how many parts it has. */
static uint32_t op_of(PyObject *word, Py_ssize_t *parts){
  *parts = 3;
  if( PyUnicode_CompareWithASCIIString(word, "insert") == 0 ) return CHANGECAP_INSERT;
  if( PyUnicode_CompareWithASCIIString(word, "delete") == 0 ) return CHANGECAP_DELETE;
  *parts = 4;
  if( PyUnicode_CompareWithASCIIString(word, "update") == 0 ) return CHANGECAP_UPDATE;
  PyErr_Format(PyExc_ValueError, "an operation is 'insert', 'update' or 'delete', not %R", word);
  return 0;
}

/* Takes the parts of an operation apart. They are a tuple that nobody changes. */
static int take_parts(operations *to, PyObject *parts, operation *made){
  Py_ssize_t least, given = PyTuple_GET_SIZE(parts);
  made->op = op_of(PyTuple_GET_ITEM(parts, 0), &least);
  if( made->op == 0 ) return 0;
  if( given < least || given > least + 1 ){
    PyErr_Format(PyExc_ValueError, "the operation %R has %zd parts, and a cause behind them or none",
                 PyTuple_GET_ITEM(parts, 0), least);
    return 0;
  }
  made->cause = CHANGECAP_DIRECT;
  if( given > least && !word_of(PyTuple_GET_ITEM(parts, least), &made->cause) ) return 0;
  if( !put_name(to, PyTuple_GET_ITEM(parts, 1), made) ) return 0;
  if( made->op == CHANGECAP_INSERT ) return put_row(to, PyTuple_GET_ITEM(parts, 2), made);
  if( !put_key(to, PyTuple_GET_ITEM(parts, 2), made) ) return 0;
  return made->op == CHANGECAP_DELETE || put_fields(to, PyTuple_GET_ITEM(parts, 3), made);
}

int take_operation(operations *to, PyObject *from){
  PyObject *parts = NULL;
  if( PyTuple_Check(from) ) parts = Py_NewRef(from);
  else if( PyList_Check(from) ) parts = PyList_AsTuple(from);
  if( parts == NULL && PyErr_Occurred() ) return 0;
  if( parts == NULL || PyTuple_GET_SIZE(parts) == 0 || !PyUnicode_Check(PyTuple_GET_ITEM(parts, 0)) ){
    Py_XDECREF(parts);
    PyErr_Format(PyExc_TypeError, "an operation is a tuple, as in ('insert', 't', (1, 'x')), not %.200s",
                 Py_TYPE(from)->tp_name);
    return 0;
  }
  operation *made = next_operation(to);
  int is_taken = made != NULL && take_parts(to, parts, made);
  to->n += (size_t)is_taken;
  Py_DECREF(parts);
  return is_taken;
}

/* Puts the inserts of the rows of an iterator last, which all have the name of the first operation's table. */
static int take_each(operations *to, const operation *named, PyObject *rows){
  PyObject *row;
  while( (row = PyIter_Next(rows)) != NULL ){
    operation *made = next_operation(to);
    int is_taken = 0;
    if( made != NULL ){
      made->op = CHANGECAP_INSERT;
      made->table = named->table;
      made->n = named->n;
      is_taken = put_row(to, row, made);
    }
    Py_DECREF(row);
    if( !is_taken ) return 0;
    to->n++;
  }
  return !PyErr_Occurred();
}

int take_rows(operations *to, PyObject *table, PyObject *rows){
  operation named;
  if( !put_name(to, table, &named) ) return 0;
  PyObject *each = PyObject_GetIter(rows);
  if( each == NULL ) return 0;
  int is_taken = take_each(to, &named, each);
  Py_DECREF(each);
  return is_taken;
}

static uint32_t put_in_batch(const operation *it, const uint8_t *bytes, changecap_batch *batch,
                             changecap_fault *fault){
  const uint8_t *table = bytes + it->table, *key = bytes + it->key, *fields = bytes + it->fields;
  if( it->op == CHANGECAP_INSERT ) return changecap_insert(batch, table, it->n, fields, it->len, it->cause, fault);
  if( it->op == CHANGECAP_DELETE ) return changecap_delete(batch, table, it->n, key, it->m, it->id, it->cause, fault);
  return changecap_update(batch, table, it->n, key, it->m, it->id, fields, it->len, it->cause, fault);
}

static uint32_t make_in_transaction(const operation *it, const uint8_t *bytes, changecap_transaction *transaction,
                                    changecap_fault *fault){
  const uint8_t *table = bytes + it->table, *key = bytes + it->key, *fields = bytes + it->fields;
  if( it->op == CHANGECAP_INSERT )
    return changecap_transaction_insert(transaction, table, it->n, fields, it->len, it->cause, fault);
  if( it->op == CHANGECAP_DELETE )
    return changecap_transaction_delete(transaction, table, it->n, key, it->m, it->id, it->cause, fault);
  return changecap_transaction_update(transaction, table, it->n, key, it->m, it->id, fields, it->len, it->cause,
                                      fault);
}

uint32_t make_operation(const operations *all, size_t at, changecap_batch *batch, changecap_transaction *transaction,
                        changecap_fault *fault){
  const uint8_t *bytes = all->bytes.at;
  uint32_t status = batch ? put_in_batch(&all->at[at], bytes, batch, fault)
                          : make_in_transaction(&all->at[at], bytes, transaction, fault);
  return of_records(status);
}

/* ---- Rows ---- */

/* What stands before the record of a row. */
typedef struct row_head {
  uint64_t id;
  size_t len;
} row_head;

/* Reads one of the rows. */
static uint32_t read_row(changecap_rows *rows, arena *to){
  row_head head = { 0, 0 };
  uint32_t status = changecap_row_id(rows, &head.id);
  if( status != CHANGECAP_OK ) return status;
  size_t first = to->room - to->n, least = sizeof head + 64;
  WRITTEN(status, to, first > least ? first : least, sizeof head + head.len,
          changecap_row(rows, to->at + to->n + sizeof head, to->room - to->n - sizeof head, &head.len));
  if( status != CHANGECAP_OK ) return status;
  arena_put(to, &head, sizeof head);
  to->n += head.len;
  return CHANGECAP_OK;
}

void read_rows(changecap_rows *rows, reading *to){
  uint32_t status = CHANGECAP_OK;
  while( status == CHANGECAP_OK && changecap_step(rows) == CHANGECAP_ROW ){
    status = read_row(rows, &to->bytes);
    to->count += status == CHANGECAP_OK;
  }
  changecap_rows_close(rows);
  to->status = status;
}

/* The next of the rows that were read. */
static PyObject *next_row(const uint8_t **at){
  row_head head;
  memcpy(&head, *at, sizeof head);
  const uint8_t *record = *at + sizeof head;
  *at = record + head.len;
  PyObject *values = values_of(record, head.len);
  PyObject *id = values == NULL ? NULL : head.id ? row_id_of(head.id) : Py_NewRef(Py_None);
  PyTypeObject *class = (PyTypeObject *)row_class;
  PyObject *row = id == NULL ? NULL : class->tp_alloc(class, 2);
  if( row == NULL ){
    Py_XDECREF(id);
    Py_XDECREF(values);
    return NULL;
  }
  PyTuple_SET_ITEM(row, 0, id);
  PyTuple_SET_ITEM(row, 1, values);
  return row;
}

static PyObject *list_of(const reading *it){
  const uint8_t *at = it->bytes.at;
  PyObject *made = PyList_New((Py_ssize_t)it->count);
  for(size_t i = 0; made != NULL && i < it->count; i++){
    PyObject *row = next_row(&at);
    if( row == NULL ) Py_CLEAR(made);
    else PyList_SET_ITEM(made, (Py_ssize_t)i, row);
  }
  return made;
}

PyObject *rows_of(reading *it){
  PyObject *made = it->status == CHANGECAP_OK ? list_of(it) : failed(of_records(it->status), &it->fault, -1, NULL);
  arena_free(&it->bytes);
  return made;
}

PyObject *row_of(reading *it){
  const uint8_t *at = it->bytes.at;
  PyObject *made;
  if( it->status != CHANGECAP_OK ) made = failed(of_records(it->status), &it->fault, -1, NULL);
  else made = it->count ? next_row(&at) : Py_NewRef(Py_None);
  arena_free(&it->bytes);
  return made;
}
