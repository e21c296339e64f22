/* Whole blobs, and the changes of a blob. */
#include "common.h"

/* ---- Whole blobs ---- */

/* The bytes that were written, or the error of the status. They are freed. */
static PyObject *bytes_or_error(uint32_t status, const changecap_fault *fault, arena *written, size_t len){
  PyObject *made = status == CHANGECAP_OK ? PyBytes_FromStringAndSize((char *)written->at, (Py_ssize_t)len)
                                          : failed(status, fault, -1, NULL);
  arena_free(written);
  return made;
}

static PyObject *check(PyObject *Py_UNUSED(module), PyObject *blob){
  changecap_fault fault = { 0, 0 };
  PyObject *content = content_of(blob);
  if( content == NULL ) return NULL;
  PyThreadState *saved = PyEval_SaveThread();
  uint32_t status = changecap_check(PyBytes_AS_STRING(content), (size_t)PyBytes_GET_SIZE(content), &fault);
  PyEval_RestoreThread(saved);
  Py_DECREF(content);
  return answered(status, &fault, -1);
}

/* What becomes of a changeset: its patchset, or its inverse. */
static PyObject *converted(PyObject *const *args, Py_ssize_t count, int is_patchset){
  changecap_fault fault = { 0, 0 };
  arena out = { NULL, 0, 0 };
  uint32_t flags, status;
  size_t len = 0;
  if( !has_arguments(count, 2) || !word_of(args[1], &flags) ) return NULL;
  PyObject *content = content_of(args[0]);
  if( content == NULL ) return NULL;
  const char *blob = PyBytes_AS_STRING(content);
  size_t n = (size_t)PyBytes_GET_SIZE(content);
  PyThreadState *saved = PyEval_SaveThread();
  WRITTEN(status, &out, n + 1, len,
          is_patchset ? changecap_patchset(blob, n, flags, out.at, out.room, &len, &fault)
                      : changecap_invert(blob, n, flags, out.at, out.room, &len, &fault));
  PyEval_RestoreThread(saved);
  Py_DECREF(content);
  return bytes_or_error(status, &fault, &out, len);
}

static PyObject *invert(PyObject *Py_UNUSED(module), PyObject *const *args, Py_ssize_t count){
  return converted(args, count, 0);
}

static PyObject *patchset(PyObject *Py_UNUSED(module), PyObject *const *args, Py_ssize_t count){
  return converted(args, count, 1);
}

/* The same of two blobs, where the error may have the number of the one that is refused. */
static PyObject *bytes_or_error_of(uint32_t status, const changecap_fault *fault, arena *written, size_t len,
                                   size_t blob){
  int is_of_blob = status == CHANGECAP_MALFORMED || status == CHANGECAP_KIND || status == CHANGECAP_COLUMNS ||
                   status == CHANGECAP_PATCHSET;
  if( !is_of_blob ) return bytes_or_error(status, fault, written, len);
  arena_free(written);
  PyObject *detail = Py_BuildValue("{sK}", "blob", (unsigned long long)blob);
  if( detail == NULL ) return NULL;
  failed(status, fault, -1, detail);
  Py_DECREF(detail);
  return NULL;
}

/* What becomes of two blobs that nobody changes: their concatenation, or a changeset over buffers. */
static PyObject *joined(PyObject *first, PyObject *second, uint32_t flags, int is_rebased){
  changecap_fault fault = { 0, 0 };
  arena out = { NULL, 0, 0 };
  uint32_t status;
  size_t len = 0, blob = 0, n = (size_t)PyBytes_GET_SIZE(first), m = (size_t)PyBytes_GET_SIZE(second);
  const char *one = PyBytes_AS_STRING(first), *other = PyBytes_AS_STRING(second);
  PyThreadState *saved = PyEval_SaveThread();
  WRITTEN(status, &out, n + m + 1, len,
          is_rebased ? changecap_rebase(one, n, other, m, flags, out.at, out.room, &len, &fault, &blob)
                     : changecap_concat(one, n, other, m, flags, out.at, out.room, &len, &fault, &blob));
  PyEval_RestoreThread(saved);
  return bytes_or_error_of(status, &fault, &out, len, blob);
}

/* Takes two blobs and key flags. */
static PyObject *join(PyObject *const *args, Py_ssize_t count, int is_rebased){
  uint32_t flags;
  if( !has_arguments(count, 3) ) return NULL;
  PyObject *first = content_of(args[0]);
  PyObject *second = first == NULL ? NULL : content_of(args[1]);
  PyObject *made = second != NULL && word_of(args[2], &flags) ? joined(first, second, flags, is_rebased) : NULL;
  Py_XDECREF(first);
  Py_XDECREF(second);
  return made;
}

static PyObject *concat(PyObject *Py_UNUSED(module), PyObject *const *args, Py_ssize_t count){
  return join(args, count, 0);
}

static PyObject *rebase(PyObject *Py_UNUSED(module), PyObject *const *args, Py_ssize_t count){
  return join(args, count, 1);
}

static PyObject *json(PyObject *Py_UNUSED(module), PyObject *blob){
  changecap_fault fault = { 0, 0 };
  arena out = { NULL, 0, 0 };
  uint32_t status;
  size_t len = 0;
  PyObject *content = content_of(blob);
  if( content == NULL ) return NULL;
  const char *at = PyBytes_AS_STRING(content);
  size_t n = (size_t)PyBytes_GET_SIZE(content);
  PyThreadState *saved = PyEval_SaveThread();
  WRITTEN(status, &out, 4 * n + 256, len, changecap_json(at, n, out.at, out.room, &len, &fault));
  PyEval_RestoreThread(saved);
  Py_DECREF(content);
  PyObject *made = status == CHANGECAP_OK ? PyUnicode_DecodeUTF8((char *)out.at, (Py_ssize_t)len, NULL)
                                          : failed(status, &fault, -1, NULL);
  arena_free(&out);
  return made;
}

PyMethodDef blob_calls[] = {
  { "check", check, METH_O, NULL },
  { "invert", (PyCFunction)(void (*)(void))invert, METH_FASTCALL, NULL },
  { "patchset", (PyCFunction)(void (*)(void))patchset, METH_FASTCALL, NULL },
  { "concat", (PyCFunction)(void (*)(void))concat, METH_FASTCALL, NULL },
  { "rebase", (PyCFunction)(void (*)(void))rebase, METH_FASTCALL, NULL },
  { "json", json, METH_O, NULL },
  { NULL, NULL, 0, NULL },
};

/* ---- Changes ---- */

/* A change. Behind it are the name of its table, a byte for each column whether it is in the key, and the records of
 * the values before it and after it. */
typedef struct change_head {
  changecap_change info;
  size_t table, old, new;
} change_head;

typedef uint32_t (*record_call)(changecap_iter *it, void *out, size_t room, size_t *len);

/* Puts the record of the row before or after a change last. */
static uint32_t put_side(changecap_iter *it, record_call record, arena *to){
  enum { FIRST = 128 };
  uint32_t status;
  size_t len = 0;
  WRITTEN(status, to, FIRST, len, record(it, to->at + to->n, to->room - to->n, &len));
  if( status == CHANGECAP_OK ) to->n += len;
  return status;
}

/* Puts the name of the table and the key last. */
static uint32_t put_table(changecap_iter *it, change_head *head, arena *to){
  uint32_t flag;
  if( !arena_has_room(to, 255 + head->info.columns) ) return CHANGECAP_NOMEM;
  uint32_t status = changecap_iter_table(it, to->at + to->n, 255, &head->table);
  if( status != CHANGECAP_OK ) return status;
  to->n += head->table;
  for(size_t column = 0; column < head->info.columns; column++){
    status = changecap_iter_key(it, column, &flag);
    if( status != CHANGECAP_OK ) return status;
    to->at[to->n++] = flag != 0;
  }
  return CHANGECAP_OK;
}

/* Puts the change that the iterator is at last. */
static uint32_t put_change(changecap_iter *it, arena *to){
  change_head head;
  size_t begin = to->n;
  uint32_t status = changecap_iter_op(it, &head.info);
  if( status != CHANGECAP_OK ) return status;
  if( !arena_has_room(to, sizeof head) ) return CHANGECAP_NOMEM;
  to->n += sizeof head;
  status = put_table(it, &head, to);
  size_t before = to->n;
  /* Only what an operation has is asked for. */
  if( status == CHANGECAP_OK && head.info.op != CHANGECAP_INSERT )
    status = put_side(it, changecap_iter_old_record, to);
  head.old = to->n - before;
  before = to->n;
  if( status == CHANGECAP_OK && head.info.op != CHANGECAP_DELETE )
    status = put_side(it, changecap_iter_new_record, to);
  head.new = to->n - before;
  memcpy(to->at + begin, &head, sizeof head);
  return status;
}

/* Puts the next changes last, some thousands of bytes of them, and counts them. */
static uint32_t put_changes(changecap_iter *it, arena *to, size_t *count){
  enum { ENOUGH = 1 << 15 };
  while( to->n < ENOUGH && changecap_iter_next(it) == CHANGECAP_ROW ){
    uint32_t status = put_change(it, to);
    if( status != CHANGECAP_OK ) return status;
    ++*count;
  }
  return CHANGECAP_OK;
}

/* The values of a record by their columns; those that are undefined are left out. */
static PyObject *fields_of(const uint8_t *at, size_t n){
  const uint8_t *end = at + n;
  PyObject *made = PyDict_New();
  for(size_t column = 0; made != NULL && at < end; column++){
    int is_undefined;
    PyObject *value = next_value(&at, &is_undefined);
    if( is_undefined ) continue;
    PyObject *name = value == NULL ? NULL : PyLong_FromSize_t(column);
    if( name == NULL || PyDict_SetItem(made, name, value) < 0 ) Py_CLEAR(made);
    Py_XDECREF(name);
    Py_XDECREF(value);
  }
  return made;
}

static PyObject *key_of(const uint8_t *at, size_t columns){
  PyObject *made = PyTuple_New((Py_ssize_t)columns);
  for(size_t i = 0; made != NULL && i < columns; i++)
    PyTuple_SET_ITEM(made, (Py_ssize_t)i, PyBool_FromLong(at[i]));
  return made;
}

/* The table that the change before this one had: its name and its key, and the bytes of both. */
typedef struct table_seen {
  PyObject *name, *key;
  const uint8_t *at;
  size_t n, columns;
} table_seen;

/* Makes the table's objects, unless the change before has the same ones. */
static int see_table(table_seen *seen, const change_head *head, const uint8_t *at){
  size_t n = head->table, columns = head->info.columns;
  if( seen->key && seen->n == n && seen->columns == columns && memcmp(seen->at, at, n + columns) == 0 ) return 1;
  Py_XDECREF(seen->name);
  Py_XDECREF(seen->key);
  seen->name = PyUnicode_DecodeUTF8((const char *)at, (Py_ssize_t)n, NULL);
  seen->key = seen->name == NULL ? NULL : key_of(at + n, columns);
  seen->at = at;
  seen->n = n;
  seen->columns = columns;
  return seen->key != NULL;
}

static PyObject *insert_name, *update_name, *delete_name;

int name_operations(void){
  insert_name = PyUnicode_InternFromString("insert");
  update_name = PyUnicode_InternFromString("update");
  delete_name = PyUnicode_InternFromString("delete");
  return insert_name && update_name && delete_name ? 0 : -1;
}

static PyObject *name_of_op(uint32_t op){
  return Py_NewRef(op == CHANGECAP_INSERT ? insert_name : op == CHANGECAP_UPDATE ? update_name : delete_name);
}

/* The next change of those that were put. */
static PyObject *next_change(const uint8_t **at, table_seen *seen){
  enum { FIELDS = 7 };
  change_head head;
  memcpy(&head, *at, sizeof head);
  const uint8_t *table = *at + sizeof head, *old = table + head.table + head.info.columns, *new = old + head.old;
  *at = new + head.new;
  if( !see_table(seen, &head, table) ) return NULL;
  PyTypeObject *class = (PyTypeObject *)change_class;
  PyObject *before = fields_of(old, head.old), *after = before == NULL ? NULL : fields_of(new, head.new);
  PyObject *op = after == NULL ? NULL : name_of_op(head.info.op);
  PyObject *made = op == NULL ? NULL : class->tp_alloc(class, FIELDS);
  if( made == NULL ){
    Py_XDECREF(before);
    Py_XDECREF(after);
    Py_XDECREF(op);
    return NULL;
  }
  PyTuple_SET_ITEM(made, 0, Py_NewRef(seen->name));
  PyTuple_SET_ITEM(made, 1, Py_NewRef(seen->key));
  PyTuple_SET_ITEM(made, 2, op);
  PyTuple_SET_ITEM(made, 3, PyBool_FromLong(head.info.indirect != 0));
  PyTuple_SET_ITEM(made, 4, PyBool_FromLong(head.info.patchset != 0));
  PyTuple_SET_ITEM(made, 5, before);
  PyTuple_SET_ITEM(made, 6, after);
  return made;
}

static PyObject *list_of(const uint8_t *at, size_t count){
  table_seen seen = { NULL, NULL, NULL, 0, 0 };
  PyObject *made = PyList_New((Py_ssize_t)count);
  for(size_t i = 0; made != NULL && i < count; i++){
    PyObject *change = next_change(&at, &seen);
    if( change == NULL ) Py_CLEAR(made);
    else PyList_SET_ITEM(made, (Py_ssize_t)i, change);
  }
  Py_XDECREF(seen.name);
  Py_XDECREF(seen.key);
  return made;
}

/* The next changes of the blob as a list. Behind the last one it is empty. */
static PyObject *changes_some(changes *self, PyObject *Py_UNUSED(none)){
  static const changecap_fault no_fault;
  arena read = { NULL, 0, 0 };
  uint32_t status;
  size_t count = 0;
  CALL(self, status, put_changes(&self->handle, &read, &count));
  PyObject *made = status == CHANGECAP_OK ? list_of(read.at, count) : failed(status, &no_fault, -1, NULL);
  arena_free(&read);
  return made;
}

static PyObject *changes_new(PyTypeObject *type, PyObject *args, PyObject *Py_UNUSED(names)){
  changecap_fault fault = { 0, 0 };
  PyObject *blob;
  if( !PyArg_ParseTuple(args, "O", &blob) ) return NULL;
  PyObject *content = content_of(blob);
  changes *made = content == NULL ? NULL : owner_new(type);
  if( made == NULL ){
    Py_XDECREF(content);
    return NULL;
  }
  PyThreadState *saved = PyEval_SaveThread();
  uint32_t status = changecap_iter_open(PyBytes_AS_STRING(content), (size_t)PyBytes_GET_SIZE(content), &made->handle,
                                        &fault);
  PyEval_RestoreThread(saved);
  Py_DECREF(content);
  if( status == CHANGECAP_OK ) return (PyObject *)made;
  Py_DECREF(made);
  return failed(status, &fault, -1, NULL);
}

/* Goes over all changes, and says of each that met a conflict its answer. A byte for each change: the answer, or
 * NO_CONFLICT. */
static uint32_t answer_all(changecap_iter *it, const uint8_t *answers, size_t n){
  enum { NO_CONFLICT = 255 };
  for(size_t i = 0; changecap_iter_next(it) == CHANGECAP_ROW; i++){
    if( i < n && answers[i] == NO_CONFLICT ) continue;
    uint32_t status = i < n ? changecap_iter_answer(it, answers[i]) : CHANGECAP_MISUSE;
    if( status != CHANGECAP_OK ) return status;
  }
  return CHANGECAP_OK;
}

/* Writes the buffer, without the GIL. */
static uint32_t put_buffer(changecap_iter *it, arena *out, size_t *len){
  uint32_t status;
  WRITTEN(status, out, 1024, *len, changecap_iter_buffer(it, CHANGECAP_KEYS_PLACES, out->at, out->room, len));
  return status;
}

static PyObject *changes_answer(changes *self, PyObject *answers){
  static const changecap_fault no_fault;
  uint32_t status;
  PyObject *content = content_of(answers);
  if( content == NULL ) return NULL;
  CALL(self, status, answer_all(&self->handle, (uint8_t *)PyBytes_AS_STRING(content),
                                (size_t)PyBytes_GET_SIZE(content)));
  Py_DECREF(content);
  return answered(status, &no_fault, -1);
}

/* The buffer of the changes that met a conflict. */
static PyObject *changes_buffer(changes *self, PyObject *Py_UNUSED(none)){
  static const changecap_fault no_fault;
  arena out = { NULL, 0, 0 };
  uint32_t status;
  size_t len = 0;
  CALL(self, status, put_buffer(&self->handle, &out, &len));
  return bytes_or_error(status, &no_fault, &out, len);
}

static PyObject *changes_close(changes *self, PyObject *Py_UNUSED(none)){
  CLOSE(self, changecap_iter_close);
  Py_RETURN_NONE;
}

static void changes_dealloc(changes *self){
  CLOSE_LAST(self, changecap_iter_close);
}

static PyMethodDef changes_methods[] = {
  { "some", (PyCFunction)changes_some, METH_NOARGS, NULL },
  { "answer", (PyCFunction)changes_answer, METH_O, NULL },
  { "buffer", (PyCFunction)changes_buffer, METH_NOARGS, NULL },
  { "close", (PyCFunction)changes_close, METH_NOARGS, NULL },
  { NULL, NULL, 0, NULL },
};

PyTypeObject changes_type = {
  PyVarObject_HEAD_INIT(NULL, 0)
  .tp_name = "changecap._changecap.Changes",
  .tp_basicsize = sizeof(changes),
  .tp_flags = Py_TPFLAGS_DEFAULT,
  .tp_new = changes_new,
  .tp_dealloc = (destructor)changes_dealloc,
  .tp_methods = changes_methods,
};

/* ---- A blob in pieces ---- */

typedef struct decoder { owner own; changecap_decoder handle; } decoder;

static PyObject *decoder_new(PyTypeObject *type, PyObject *args, PyObject *Py_UNUSED(names)){
  static const changecap_fault no_fault;
  if( !PyArg_ParseTuple(args, "") ) return NULL;
  decoder *made = owner_new(type);
  if( made == NULL ) return NULL;
  uint32_t status = changecap_decoder_open(&made->handle);
  if( status == CHANGECAP_OK ) return (PyObject *)made;
  Py_DECREF(made);
  return failed(status, &no_fault, -1, NULL);
}

static PyObject *decoder_feed(decoder *self, PyObject *piece){
  changecap_fault fault = { 0, 0 };
  uint32_t status;
  PyObject *content = content_of(piece);
  if( content == NULL ) return NULL;
  CALL(self, status, changecap_decoder_feed(&self->handle, PyBytes_AS_STRING(content),
                                            (size_t)PyBytes_GET_SIZE(content), &fault));
  Py_DECREF(content);
  return answered(status, &fault, -1);
}

/* The changes of all the pieces. The decoder is closed. */
static PyObject *decoder_finish(decoder *self, PyObject *Py_UNUSED(none)){
  changecap_fault fault = { 0, 0 };
  uint32_t status;
  changes *made = owner_new(&changes_type);
  if( made == NULL ) return NULL;
  CALL(self, status, changecap_decoder_finish(&self->handle, &made->handle, &fault));
  if( status == CHANGECAP_OK ) return (PyObject *)made;
  Py_DECREF(made);
  return failed(status, &fault, -1, NULL);
}

static void decoder_dealloc(decoder *self){
  CLOSE_LAST(self, changecap_decoder_close);
}

static PyMethodDef decoder_methods[] = {
  { "feed", (PyCFunction)decoder_feed, METH_O, NULL },
  { "finish", (PyCFunction)decoder_finish, METH_NOARGS, NULL },
  { NULL, NULL, 0, NULL },
};

PyTypeObject decoder_type = {
  PyVarObject_HEAD_INIT(NULL, 0)
  .tp_name = "changecap._changecap.Decoder",
  .tp_basicsize = sizeof(decoder),
  .tp_flags = Py_TPFLAGS_DEFAULT,
  .tp_new = decoder_new,
  .tp_dealloc = (destructor)decoder_dealloc,
  .tp_methods = decoder_methods,
};
