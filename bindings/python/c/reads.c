/* Snapshots, transactions and captures: what is read, and written down, without the state of the history. */
#include "common.h"

static const changecap_fault no_fault;

/* What is asked of a table: the row of a key, all rows, or those from a key on. */
typedef enum asked { ROW_OF, ALL, FROM } asked;

/* What a read is given. */
typedef struct question {
  asked what;
  text table;
  arena key;
  uint64_t id, limit;
} question;

static uint32_t open_snapshot_rows(changecap_snapshot *of, const question *it, changecap_rows *rows,
                                   changecap_fault *fault){
  const char *table = it->table.at;
  size_t n = it->table.n;
  if( it->what == ALL ) return changecap_scan(of, table, n, rows, fault);
  if( it->what == FROM ) return changecap_scan_from(of, table, n, it->key.at, it->key.n, it->limit, rows, fault);
  return changecap_get(of, table, n, it->key.at, it->key.n, it->id, rows, fault);
}

static uint32_t open_transaction_rows(changecap_transaction *of, const question *it, changecap_rows *rows,
                                      changecap_fault *fault){
  const char *table = it->table.at;
  size_t n = it->table.n;
  if( it->what == ALL ) return changecap_transaction_scan(of, table, n, rows, fault);
  return changecap_transaction_get(of, table, n, it->key.at, it->key.n, it->id, rows, fault);
}

/* Takes the words of a question: the table, then the row or the key, and then the limit, as far as it has them. */
static int take_question(PyObject *const *args, Py_ssize_t count, question *to){
  if( !has_arguments(count, to->what == ALL ? 1 : to->what == FROM ? 3 : 2) ) return 0;
  if( !text_of(args[0], &to->table) ) return 0;
  if( to->what == ROW_OF ) return put_named(&to->key, args[1], &to->id);
  return to->what == ALL || (put_record(&to->key, args[1], "a key is a tuple or a list of values, as in (1,)") &&
                             number_of(args[2], 64, &to->limit));
}

/* The answer to a question that was taken, whose rows were opened with a status; the GIL is held again. */
#define READ(self, it, open, read) \
  do{ \
    changecap_rows rows = CHANGECAP_CLOSED; \
    PyThreadState *saved = enter(self); \
    (read).status = (self)->handle.at ? open(&(self)->handle, &(it), &rows, &(read).fault) : CLOSED; \
    pthread_mutex_unlock(&(self)->own.mutex); \
    if( (read).status == CHANGECAP_OK ) read_rows(&rows, &(read)); \
    PyEval_RestoreThread(saved); \
  }while( 0 )

/* The bytes that a call wrote, or the error of its status. Frees them. */
static PyObject *bytes_written(uint32_t status, arena *out, size_t len){
  PyObject *made = status == CHANGECAP_OK ? PyBytes_FromStringAndSize((char *)out->at, (Py_ssize_t)len)
                                          : failed(status, &no_fault, -1, NULL);
  arena_free(out);
  return made;
}

/* ---- Snapshots ---- */

static PyObject *ask_snapshot(snapshot *self, PyObject *const *args, Py_ssize_t count, asked what){
  question it = { what, { "", 0 }, { NULL, 0, 0 }, 0, 0 };
  reading read = { 0, { 0, 0 }, { NULL, 0, 0 }, 0 };
  int is_taken = take_question(args, count, &it);
  if( is_taken ) READ(self, it, open_snapshot_rows, read);
  arena_free(&it.key);
  if( !is_taken ) return NULL;
  return what == ROW_OF ? row_of(&read) : rows_of(&read);
}

static PyObject *snapshot_get(snapshot *self, PyObject *const *args, Py_ssize_t count){
  return ask_snapshot(self, args, count, ROW_OF);
}

static PyObject *snapshot_scan(snapshot *self, PyObject *const *args, Py_ssize_t count){
  return ask_snapshot(self, args, count, ALL);
}

static PyObject *snapshot_scan_from(snapshot *self, PyObject *const *args, Py_ssize_t count){
  return ask_snapshot(self, args, count, FROM);
}

static PyObject *snapshot_version(snapshot *self, PyObject *Py_UNUSED(none)){
  uint64_t version = 0;
  uint32_t status;
  CALL(self, status, changecap_snapshot_version(&self->handle, &version));
  return status == CHANGECAP_OK ? PyLong_FromUnsignedLongLong(version) : failed(status, &no_fault, -1, NULL);
}

static PyObject *snapshot_begin(snapshot *self, PyObject *Py_UNUSED(none)){
  uint32_t status;
  transaction *made = owner_new(&transaction_type);
  if( made == NULL ) return NULL;
  CALL(self, status, changecap_begin(&self->handle, &made->handle));
  if( status == CHANGECAP_OK ) return (PyObject *)made;
  Py_DECREF(made);
  return failed(status, &no_fault, -1, NULL);
}

/* Takes a table and the key flags, and writes the table. */
static PyObject *snapshot_dump(snapshot *self, PyObject *const *args, Py_ssize_t count){
  arena out = { NULL, 0, 0 };
  uint32_t flags, status;
  size_t len = 0;
  text table;
  if( !has_arguments(count, 2) || !text_of(args[0], &table) || !word_of(args[1], &flags) ) return NULL;
  PyThreadState *saved = enter(self);
  if( self->handle.at == NULL ) status = CLOSED;
  else WRITTEN(status, &out, FIRST_ROOM, len, changecap_dump(&self->handle, table.at, table.n, flags, out.at, out.room,
                                                          &len));
  leave(self, saved);
  return bytes_written(status, &out, len);
}

static PyObject *snapshot_close(snapshot *self, PyObject *Py_UNUSED(none)){
  CLOSE(self, changecap_snapshot_close);
  Py_RETURN_NONE;
}

static void snapshot_dealloc(snapshot *self){
  CLOSE_LAST(self, changecap_snapshot_close);
}

static PyMethodDef snapshot_methods[] = {
  { "get", (PyCFunction)(void (*)(void))snapshot_get, METH_FASTCALL, NULL },
  { "scan", (PyCFunction)(void (*)(void))snapshot_scan, METH_FASTCALL, NULL },
  { "scan_from", (PyCFunction)(void (*)(void))snapshot_scan_from, METH_FASTCALL, NULL },
  { "version", (PyCFunction)snapshot_version, METH_NOARGS, NULL },
  { "dump", (PyCFunction)(void (*)(void))snapshot_dump, METH_FASTCALL, NULL },
  { "begin", (PyCFunction)snapshot_begin, METH_NOARGS, NULL },
  { "apply", (PyCFunction)(void (*)(void))snapshot_apply, METH_FASTCALL, NULL },
  { "close", (PyCFunction)snapshot_close, METH_NOARGS, NULL },
  { NULL, NULL, 0, NULL },
};

PyTypeObject snapshot_type = {
  PyVarObject_HEAD_INIT(NULL, 0)
  .tp_name = "changecap._changecap.Snapshot",
  .tp_basicsize = sizeof(snapshot),
  .tp_flags = Py_TPFLAGS_DEFAULT | Py_TPFLAGS_DISALLOW_INSTANTIATION,
  .tp_dealloc = (destructor)snapshot_dealloc,
  .tp_methods = snapshot_methods,
};

/* ---- Transactions ---- */

static PyObject *ask_transaction(transaction *self, PyObject *const *args, Py_ssize_t count, asked what){
  question it = { what, { "", 0 }, { NULL, 0, 0 }, 0, 0 };
  reading read = { 0, { 0, 0 }, { NULL, 0, 0 }, 0 };
  int is_taken = take_question(args, count, &it);
  if( is_taken ) READ(self, it, open_transaction_rows, read);
  arena_free(&it.key);
  if( !is_taken ) return NULL;
  return what == ROW_OF ? row_of(&read) : rows_of(&read);
}

static PyObject *transaction_get(transaction *self, PyObject *const *args, Py_ssize_t count){
  return ask_transaction(self, args, count, ROW_OF);
}

static PyObject *transaction_scan(transaction *self, PyObject *const *args, Py_ssize_t count){
  return ask_transaction(self, args, count, ALL);
}

/* Makes each of the operations, up to the first that is refused, and sets its number. */
static uint32_t make_each(transaction *self, const operations *all, size_t *at, changecap_fault *fault){
  uint32_t status = CHANGECAP_OK;
  for(size_t i = 0; status == CHANGECAP_OK && i < all->n; i++){
    *at = i;
    status = make_operation(all, i, NULL, &self->handle, fault);
  }
  return status;
}

/* Makes the operations that were taken, and frees them. */
static PyObject *make_taken(transaction *self, operations *all, int is_taken){
  changecap_fault fault = { 0, 0 };
  uint32_t status = CHANGECAP_OK;
  size_t at = 0;
  if( is_taken ) CALL(self, status, make_each(self, all, &at, &fault));
  int has_place = all->n > 1;
  operations_free(all);
  return is_taken ? answered(status, &fault, has_place ? (long long)at : -1) : NULL;
}

/* Takes the parts of an operation, as in ("insert", table, values). */
static PyObject *transaction_make(transaction *self, PyObject *parts){
  operations all = { NULL, 0, 0, { NULL, 0, 0 } };
  return make_taken(self, &all, take_operation(&all, parts));
}

/* Takes a table, and rows to insert. */
static PyObject *transaction_insert_many(transaction *self, PyObject *const *args, Py_ssize_t count){
  operations all = { NULL, 0, 0, { NULL, 0, 0 } };
  if( !has_arguments(count, 2) ) return NULL;
  return make_taken(self, &all, take_rows(&all, args[0], args[1]));
}

static PyObject *transaction_savepoint(transaction *self, PyObject *Py_UNUSED(none)){
  changecap_fault fault = { 0, 0 };
  uint64_t mark = 0;
  uint32_t status;
  CALL(self, status, changecap_savepoint(&self->handle, &mark, &fault));
  return status == CHANGECAP_OK ? PyLong_FromUnsignedLongLong(mark) : failed(status, &fault, -1, NULL);
}

static PyObject *transaction_rollback_to(transaction *self, PyObject *number){
  changecap_fault fault = { 0, 0 };
  uint64_t mark;
  uint32_t status;
  if( !number_of(number, 64, &mark) ) return NULL;
  CALL(self, status, changecap_rollback_to(&self->handle, mark, &fault));
  return answered(status, &fault, -1);
}

static PyObject *transaction_rollback(transaction *self, PyObject *Py_UNUSED(none)){
  CLOSE(self, changecap_rollback);
  Py_RETURN_NONE;
}

static void transaction_dealloc(transaction *self){
  CLOSE_LAST(self, changecap_rollback);
}

static PyMethodDef transaction_methods[] = {
  { "get", (PyCFunction)(void (*)(void))transaction_get, METH_FASTCALL, NULL },
  { "scan", (PyCFunction)(void (*)(void))transaction_scan, METH_FASTCALL, NULL },
  { "make", (PyCFunction)transaction_make, METH_O, NULL },
  { "insert_many", (PyCFunction)(void (*)(void))transaction_insert_many, METH_FASTCALL, NULL },
  { "savepoint", (PyCFunction)transaction_savepoint, METH_NOARGS, NULL },
  { "rollback_to", (PyCFunction)transaction_rollback_to, METH_O, NULL },
  { "rollback", (PyCFunction)transaction_rollback, METH_NOARGS, NULL },
  { NULL, NULL, 0, NULL },
};

PyTypeObject transaction_type = {
  PyVarObject_HEAD_INIT(NULL, 0)
  .tp_name = "changecap._changecap.Transaction",
  .tp_basicsize = sizeof(transaction),
  .tp_flags = Py_TPFLAGS_DEFAULT | Py_TPFLAGS_DISALLOW_INSTANTIATION,
  .tp_dealloc = (destructor)transaction_dealloc,
  .tp_methods = transaction_methods,
};

/* ---- Captures ---- */

typedef uint32_t (*writing_call)(changecap_capture *capture, uint32_t key_flags, void *out, size_t room, size_t *len);

static PyObject *written(capture *self, PyObject *key_flags, writing_call call){
  arena out = { NULL, 0, 0 };
  uint32_t flags, status;
  size_t len = 0;
  if( !word_of(key_flags, &flags) ) return NULL;
  PyThreadState *saved = enter(self);
  if( self->handle.at == NULL ) status = CLOSED;
  else WRITTEN(status, &out, FIRST_ROOM, len, call(&self->handle, flags, out.at, out.room, &len));
  leave(self, saved);
  return bytes_written(status, &out, len);
}

static uint32_t write_changeset(changecap_capture *of, uint32_t key_flags, void *out, size_t room, size_t *len){
  return changecap_capture_changeset(of, key_flags, out, room, len);
}

static uint32_t write_patchset(changecap_capture *of, uint32_t key_flags, void *out, size_t room, size_t *len){
  return changecap_capture_patchset(of, key_flags, out, room, len);
}

static PyObject *capture_changeset(capture *self, PyObject *key_flags){
  return written(self, key_flags, write_changeset);
}

static PyObject *capture_patchset(capture *self, PyObject *key_flags){
  return written(self, key_flags, write_patchset);
}

static PyObject *capture_version(capture *self, PyObject *Py_UNUSED(none)){
  uint64_t version = 0;
  uint32_t status;
  CALL(self, status, changecap_capture_version(&self->handle, &version));
  return status == CHANGECAP_OK ? PyLong_FromUnsignedLongLong(version) : failed(status, &no_fault, -1, NULL);
}

static PyObject *capture_close(capture *self, PyObject *Py_UNUSED(none)){
  CLOSE(self, changecap_capture_close);
  Py_RETURN_NONE;
}

static void capture_dealloc(capture *self){
  CLOSE_LAST(self, changecap_capture_close);
}

static PyMethodDef capture_methods[] = {
  { "changeset", (PyCFunction)capture_changeset, METH_O, NULL },
  { "patchset", (PyCFunction)capture_patchset, METH_O, NULL },
  { "version", (PyCFunction)capture_version, METH_NOARGS, NULL },
  { "close", (PyCFunction)capture_close, METH_NOARGS, NULL },
  { NULL, NULL, 0, NULL },
};

PyTypeObject capture_type = {
  PyVarObject_HEAD_INIT(NULL, 0)
  .tp_name = "changecap._changecap.Capture",
  .tp_basicsize = sizeof(capture),
  .tp_flags = Py_TPFLAGS_DEFAULT | Py_TPFLAGS_DISALLOW_INSTANTIATION,
  .tp_dealloc = (destructor)capture_dealloc,
  .tp_methods = capture_methods,
};
