/* A client of a history, and the captures of its sessions. */
#include "common.h"

typedef struct client { owner own; changecap_client handle; } client;

static const changecap_fault no_fault;

/* ---- Opening and closing ---- */

static PyObject *client_new(PyTypeObject *type, PyObject *args, PyObject *Py_UNUSED(names)){
  if( !PyArg_ParseTuple(args, "") ) return NULL;
  client *made = owner_new(type);
  if( made == NULL ) return NULL;
  uint32_t status = changecap_open(&made->handle);
  if( status == CHANGECAP_OK ) return (PyObject *)made;
  Py_DECREF(made);
  return failed(status, &no_fault, -1, NULL);
}

/* A further client of the same history. */
static PyObject *client_join(client *self, PyObject *Py_UNUSED(none)){
  uint32_t status;
  client *made = owner_new(&client_type);
  if( made == NULL ) return NULL;
  CALL(self, status, changecap_join(&made->handle, &self->handle));
  if( status == CHANGECAP_OK ) return (PyObject *)made;
  Py_DECREF(made);
  return failed(status, &no_fault, -1, NULL);
}

static PyObject *client_close(client *self, PyObject *Py_UNUSED(none)){
  CLOSE(self, changecap_close);
  Py_RETURN_NONE;
}

static void client_dealloc(client *self){
  if( self->own.weak ) PyObject_ClearWeakRefs((PyObject *)self);
  CLOSE_LAST(self, changecap_close);
}

/* ---- Commands ---- */

/* A number that a call has set, or the error of its status. */
static PyObject *number_or_error(uint32_t status, const changecap_fault *fault, uint64_t number){
  return status == CHANGECAP_OK ? PyLong_FromUnsignedLongLong(number) : failed(status, fault, -1, NULL);
}

/* Makes a command and writes its reply, while the client is this call's. */
static uint32_t replied(client *self, text command, arena *out, size_t *len, changecap_fault *fault, int *is_refused){
  uint32_t status = changecap_call(&self->handle, command.at, command.n, fault);
  *is_refused = status == CHANGECAP_REFUSED;
  if( status != CHANGECAP_OK && !*is_refused ) return status;
  WRITTEN(status, out, 1024, *len, changecap_reply(&self->handle, out->at, out->room, len));
  return status;
}

/* Whether a command was refused, and the text of its reply. */
static PyObject *client_call(client *self, PyObject *command){
  changecap_fault fault = { 0, 0 };
  arena out = { NULL, 0, 0 };
  uint32_t status;
  int is_refused = 0;
  size_t len = 0;
  text words;
  if( !text_of(command, &words) ) return NULL;
  CALL(self, status, replied(self, words, &out, &len, &fault, &is_refused));
  PyObject *reply = status == CHANGECAP_OK ? PyUnicode_DecodeUTF8((char *)out.at, (Py_ssize_t)len, NULL)
                                           : failed(status, &fault, -1, NULL);
  arena_free(&out);
  return reply == NULL ? NULL : Py_BuildValue("NN", PyBool_FromLong(is_refused), reply);
}

/* Takes the name of a table, and bytes that are not 0 for the columns of its key. */
static PyObject *client_create(client *self, PyObject *const *args, Py_ssize_t count){
  changecap_fault fault = { 0, 0 };
  uint64_t version = 0;
  uint32_t status;
  text table;
  if( !has_arguments(count, 2) || !text_of(args[0], &table) ) return NULL;
  PyObject *key = content_of(args[1]);
  if( key == NULL ) return NULL;
  CALL(self, status, changecap_create(&self->handle, table.at, table.n, PyBytes_AS_STRING(key),
                                      (size_t)PyBytes_GET_SIZE(key), &version, &fault));
  Py_DECREF(key);
  return number_or_error(status, &fault, version);
}

static PyObject *client_save(client *self, PyObject *database){
  changecap_fault fault = { 0, 0 };
  uint32_t status;
  text name;
  if( !text_of(database, &name) ) return NULL;
  CALL(self, status, changecap_save(&self->handle, name.at, name.n, &fault));
  return answered(status, &fault, -1);
}

/* What an application with fixed answers is asked for, and what an application answers. */
typedef struct applied {
  uint32_t data, notfound, conflict, status;
  changecap_report report;
  changecap_passed passed;
  changecap_fault fault;
} applied;

/* The report, or the error of the status. */
static PyObject *report_or_error(const applied *made){
  const changecap_report *it = &made->report;
  /* 15 and 16 are the refusals of a change. */
  int is_of_change = made->fault.kind == CHANGECAP_E_ABORTED || made->fault.kind == CHANGECAP_E_MISUSE;
  if( made->status != CHANGECAP_OK )
    return failed(made->status, &made->fault, is_of_change ? (long long)made->fault.at : -1, NULL);
  return Py_BuildValue("KKKKK", (unsigned long long)it->version, (unsigned long long)it->applied,
                       (unsigned long long)it->conflicts, (unsigned long long)it->omitted,
                       (unsigned long long)it->skipped);
}

/* Takes the three answers, behind a blob, and before a filter and the quiet sessions. */
static int take_answers(PyObject *const *args, Py_ssize_t count, applied *to){
  *to = (applied){ 0, 0, 0, CHANGECAP_OK, { 0, 0, 0, 0, 0 }, { 0, 0 }, { 0, 0 } };
  return has_arguments(count, 6) && word_of(args[1], &to->data) && word_of(args[2], &to->notfound) &&
         word_of(args[3], &to->conflict);
}

/* Takes the text of a filter, and the numbers of sessions, a tuple, which are put into the bytes. */
static int take_options(PyObject *filter, PyObject *quiet, arena *numbers, changecap_options *to){
  text told;
  Py_ssize_t count = PyTuple_Check(quiet) ? PyTuple_GET_SIZE(quiet) : -1;
  if( !text_of(filter, &told) ) return 0;
  if( count < 0 ){
    PyErr_SetString(PyExc_TypeError, "the quiet sessions are no tuple");
    return 0;
  }
  if( !arena_has_room(numbers, (size_t)count * sizeof *to->quiet) ){
    PyErr_NoMemory();
    return 0;
  }
  for(Py_ssize_t i = 0; i < count; i++){
    uint64_t number;
    if( !number_of(PyTuple_GET_ITEM(quiet, i), 64, &number) ) return 0;
    arena_put(numbers, &number, sizeof number);
  }
  const void *at = numbers->at;
  *to = (changecap_options){ .filter = told.at, .filter_n = told.n, .quiet = at, .quiet_n = (size_t)count };
  return 1;
}

/* The report with what was passed over, or the error of the status. */
static PyObject *report_with_passed(const applied *made){
  const changecap_passed *over = &made->passed;
  PyObject *report = report_or_error(made);
  if( report == NULL ) return NULL;
  return Py_BuildValue("N(KK)", report, (unsigned long long)over->groups, (unsigned long long)over->changes);
}

/* Takes a blob, the three answers, a filter and the quiet sessions. */
static PyObject *client_apply(client *self, PyObject *const *args, Py_ssize_t count){
  applied made;
  changecap_options options = { NULL, 0, NULL, 0 };
  arena quiet = { NULL, 0, 0 };
  if( !take_answers(args, count, &made) ) return NULL;
  PyObject *blob = take_options(args[4], args[5], &quiet, &options) ? content_of(args[0]) : NULL;
  if( blob )
    CALL(self, made.status,
         changecap_apply_with(&self->handle, PyBytes_AS_STRING(blob), (size_t)PyBytes_GET_SIZE(blob), made.data,
                              made.notfound, made.conflict, &options, &made.report, &made.passed, &made.fault));
  arena_free(&quiet);
  if( blob == NULL ) return NULL;
  Py_DECREF(blob);
  return report_with_passed(&made);
}

/* Takes a blob, whose tables are made. */
static PyObject *client_load(client *self, PyObject *given){
  applied made = { 0, 0, 0, CHANGECAP_OK, { 0, 0, 0, 0, 0 }, { 0, 0 }, { 0, 0 } };
  PyObject *blob = content_of(given);
  if( blob == NULL ) return NULL;
  CALL(self, made.status, changecap_load(&self->handle, PyBytes_AS_STRING(blob), (size_t)PyBytes_GET_SIZE(blob),
                                         &made.report, &made.fault));
  Py_DECREF(blob);
  return report_or_error(&made);
}

/* Applies what changes are of, without the GIL. They are locked before the client, here alone. */
static void apply_changes(client *self, changes *of, const changecap_options *options, applied *made){
  pthread_mutex_lock(&of->own.mutex);
  pthread_mutex_lock(&self->own.mutex);
  int is_open = self->handle.at && of->handle.at;
  made->status = !is_open ? CLOSED
                          : changecap_apply_iter_with(&self->handle, &of->handle, made->data, made->notfound,
                                                      made->conflict, options, &made->report, &made->passed,
                                                      &made->fault);
  pthread_mutex_unlock(&self->own.mutex);
  pthread_mutex_unlock(&of->own.mutex);
}

/* Takes changes, the three answers, a filter and the quiet sessions. */
static PyObject *client_apply_changes(client *self, PyObject *const *args, Py_ssize_t count){
  applied made;
  changecap_options options = { NULL, 0, NULL, 0 };
  arena quiet = { NULL, 0, 0 };
  if( !take_answers(args, count, &made) ) return NULL;
  if( Py_TYPE(args[0]) != &changes_type ){
    PyErr_SetString(PyExc_TypeError, "these are no changes");
    return NULL;
  }
  int is_taken = take_options(args[4], args[5], &quiet, &options);
  if( is_taken ){
    PyThreadState *saved = PyEval_SaveThread();
    apply_changes(self, (changes *)args[0], &options, &made);
    PyEval_RestoreThread(saved);
  }
  arena_free(&quiet);
  return is_taken ? report_with_passed(&made) : NULL;
}

/* ---- Sessions ---- */

static PyObject *client_session_new(client *self, PyObject *Py_UNUSED(none)){
  changecap_fault fault = { 0, 0 };
  uint64_t session = 0;
  uint32_t status;
  CALL(self, status, changecap_session_new(&self->handle, &session, &fault));
  return number_or_error(status, &fault, session);
}

static PyObject *client_session_drop(client *self, PyObject *number){
  changecap_fault fault = { 0, 0 };
  uint64_t session;
  uint32_t status;
  if( !number_of(number, 64, &session) ) return NULL;
  CALL(self, status, changecap_session_drop(&self->handle, session, &fault));
  return answered(status, &fault, -1);
}

/* Takes a session, and the name of a table, or None for all of them. */
static PyObject *client_session_attach(client *self, PyObject *const *args, Py_ssize_t count){
  changecap_fault fault = { 0, 0 };
  uint64_t session;
  uint32_t status;
  text table = { "", 0 };
  if( !has_arguments(count, 2) || !number_of(args[0], 64, &session) ) return NULL;
  int is_all = args[1] == Py_None;
  if( !is_all && !text_of(args[1], &table) ) return NULL;
  CALL(self, status, is_all ? changecap_session_attach_all(&self->handle, session, &fault)
                            : changecap_session_attach(&self->handle, session, table.at, table.n, &fault));
  return answered(status, &fault, -1);
}

static PyObject *client_session_filter(client *self, PyObject *const *args, Py_ssize_t count){
  changecap_fault fault = { 0, 0 };
  uint64_t session;
  uint32_t status;
  text filter;
  if( !has_arguments(count, 2) || !number_of(args[0], 64, &session) || !text_of(args[1], &filter) ) return NULL;
  CALL(self, status, changecap_session_filter(&self->handle, session, filter.at, filter.n, &fault));
  return answered(status, &fault, -1);
}

/* Takes a session, and the names of a saved database and of a table. */
static PyObject *client_session_diff(client *self, PyObject *const *args, Py_ssize_t count){
  changecap_fault fault = { 0, 0 };
  uint64_t session;
  uint32_t status;
  text from, table;
  if( !has_arguments(count, 3) || !number_of(args[0], 64, &session) || !text_of(args[1], &from) ||
      !text_of(args[2], &table) )
    return NULL;
  CALL(self, status, changecap_session_diff(&self->handle, session, from.at, from.n, table.at, table.n, &fault));
  return answered(status, &fault, -1);
}

typedef uint32_t (*flag_call)(changecap_client *client, uint64_t session, uint32_t set, uint32_t *flag,
                              changecap_fault *fault);

/* The flag of a session. It is set where True or False is given, and not where None is. */
static PyObject *flag_of(client *self, PyObject *const *args, Py_ssize_t count, flag_call call){
  changecap_fault fault = { 0, 0 };
  uint64_t session;
  uint32_t status, flag = 0, set = CHANGECAP_ASK;
  if( !has_arguments(count, 2) || !number_of(args[0], 64, &session) ) return NULL;
  if( args[1] != Py_None ) set = args[1] == Py_True ? CHANGECAP_ON : CHANGECAP_OFF;
  CALL(self, status, call(&self->handle, session, set, &flag, &fault));
  return status == CHANGECAP_OK ? PyBool_FromLong(flag != 0) : failed(status, &fault, -1, NULL);
}

static PyObject *client_session_enable(client *self, PyObject *const *args, Py_ssize_t count){
  return flag_of(self, args, count, changecap_session_enable);
}

static PyObject *client_session_indirect(client *self, PyObject *const *args, Py_ssize_t count){
  return flag_of(self, args, count, changecap_session_indirect);
}

static PyObject *client_session_isempty(client *self, PyObject *number){
  changecap_fault fault = { 0, 0 };
  uint64_t session;
  uint32_t status, flag = 0;
  if( !number_of(number, 64, &session) ) return NULL;
  CALL(self, status, changecap_session_isempty(&self->handle, session, &flag, &fault));
  return status == CHANGECAP_OK ? PyBool_FromLong(flag != 0) : failed(status, &fault, -1, NULL);
}

typedef uint32_t (*capture_call)(changecap_client *client, uint64_t session, changecap_capture *capture,
                                 changecap_fault *fault);

static PyObject *captured(client *self, PyObject *number, capture_call call){
  changecap_fault fault = { 0, 0 };
  uint64_t session;
  uint32_t status;
  if( !number_of(number, 64, &session) ) return NULL;
  capture *made = owner_new(&capture_type);
  if( made == NULL ) return NULL;
  CALL(self, status, call(&self->handle, session, &made->handle, &fault));
  if( status == CHANGECAP_OK ) return (PyObject *)made;
  Py_DECREF(made);
  return failed(status, &fault, -1, NULL);
}

static PyObject *client_session_capture(client *self, PyObject *number){
  return captured(self, number, changecap_session_capture);
}

static PyObject *client_session_restart(client *self, PyObject *number){
  return captured(self, number, changecap_session_restart);
}

/* ---- Snapshots ---- */

static PyObject *client_snapshot(client *self, PyObject *Py_UNUSED(none)){
  uint32_t status;
  snapshot *made = owner_new(&snapshot_type);
  if( made == NULL ) return NULL;
  CALL(self, status, changecap_snapshot_open(&self->handle, &made->handle));
  if( status == CHANGECAP_OK ) return (PyObject *)made;
  Py_DECREF(made);
  return failed(status, &no_fault, -1, NULL);
}

/* ---- Commits ---- */

/* A commit: the session that is captured with it, or 0, and what became of it. `is_judged` is whether the history was
 * asked, so that a refusal has a place. */
typedef struct commitment {
  uint64_t session, version;
  capture *capture;
  uint32_t status;
  int is_judged;
  changecap_fault fault;
} commitment;

/* Commits a batch, without the GIL. */
static void commit_batch(client *self, changecap_batch *batch, commitment *made){
  pthread_mutex_lock(&self->own.mutex);
  made->is_judged = 1;
  if( self->handle.at == NULL ) made->status = CLOSED;
  else if( made->capture )
    made->status = changecap_commit_captured(&self->handle, batch, made->session, &made->version,
                                             &made->capture->handle, &made->fault);
  else made->status = changecap_commit(&self->handle, batch, &made->version, &made->fault);
  pthread_mutex_unlock(&self->own.mutex);
}

/* Takes the session of a commit, or None. */
static int take_session(PyObject *from, commitment *made){
  if( from == Py_None ) return 1;
  if( !number_of(from, 64, &made->session) ) return 0;
  made->capture = owner_new(&capture_type);
  return made->capture != NULL;
}

/* The version, and the capture or None; or the error, which may have the item of a transaction that has changed. */
static PyObject *committed(commitment *made, PyObject *item){
  if( made->status == CHANGECAP_OK ){
    PyObject *capture = made->capture ? (PyObject *)made->capture : Py_NewRef(Py_None);
    return Py_BuildValue("KN", (unsigned long long)made->version, capture);
  }
  int is_lost = made->capture && made->version;
  Py_XDECREF(made->capture);
  PyObject *detail = is_lost ? Py_BuildValue("{sK}", "version", (unsigned long long)made->version) : Py_XNewRef(item);
  if( is_lost && detail == NULL ) return NULL;
  /* These two refuse the whole batch. */
  uint32_t kind = made->fault.kind;
  int has_place = made->is_judged && kind != CHANGECAP_E_STALE && kind != CHANGECAP_E_NO_SESSION;
  failed(made->status, &made->fault, has_place ? (long long)made->fault.at : -1, detail);
  Py_XDECREF(detail);
  return NULL;
}

/* Whether something has changed that a transaction, or an application, looked at. */
static int is_stale(const commitment *made){
  return made->status == CHANGECAP_REFUSED && made->fault.kind == CHANGECAP_E_STALE;
}

/* Puts the operations into a batch and commits it, without the GIL. */
static void commit_operations(client *self, const operations *all, const uint64_t *base, commitment *made){
  changecap_batch batch = CHANGECAP_CLOSED;
  made->status = base ? changecap_batch_open_at(&batch, *base) : changecap_batch_open(&batch);
  for(size_t i = 0; made->status == CHANGECAP_OK && i < all->n; i++)
    made->status = make_operation(all, i, &batch, NULL, &made->fault);
  if( made->status == CHANGECAP_OK ) commit_batch(self, &batch, made);
  changecap_batch_close(&batch);
}

/* Commits what was taken, and frees it. */
static PyObject *commit_taken(client *self, operations *all, PyObject *base, PyObject *session){
  commitment made = { 0, 0, NULL, 0, 0, { 0, 0 } };
  uint64_t version;
  int is_based = base != Py_None;
  int is_taken = (!is_based || number_of(base, 64, &version)) && take_session(session, &made);
  if( is_taken ){
    PyThreadState *saved = PyEval_SaveThread();
    commit_operations(self, all, is_based ? &version : NULL, &made);
    PyEval_RestoreThread(saved);
  }
  operations_free(all);
  return is_taken ? committed(&made, NULL) : NULL;
}

/* Takes a tuple of operations, a base or None, and a session or None. */
static PyObject *client_commit(client *self, PyObject *const *args, Py_ssize_t count){
  operations all = { NULL, 0, 0, { NULL, 0, 0 } };
  if( !has_arguments(count, 3) ) return NULL;
  int is_taken = PyTuple_Check(args[0]);
  if( !is_taken ) PyErr_SetString(PyExc_TypeError, "the operations are a tuple");
  for(Py_ssize_t i = 0; is_taken && i < PyTuple_GET_SIZE(args[0]); i++)
    is_taken = take_operation(&all, PyTuple_GET_ITEM(args[0], i));
  if( is_taken ) return commit_taken(self, &all, args[1], args[2]);
  operations_free(&all);
  return NULL;
}

/* Takes a table, rows to insert, a base or None, and a session or None. */
static PyObject *client_commit_many(client *self, PyObject *const *args, Py_ssize_t count){
  operations all = { NULL, 0, 0, { NULL, 0, 0 } };
  if( !has_arguments(count, 4) ) return NULL;
  if( take_rows(&all, args[0], args[1]) ) return commit_taken(self, &all, args[2], args[3]);
  operations_free(&all);
  return NULL;
}

/* An item of a transaction's batch, as bytes. */
typedef struct item_read {
  changecap_item item;
  uint32_t status;
  size_t table, key;
  arena bytes;
} item_read;

/* Reads the name and the key of an item, without the GIL. */
static void read_item(changecap_batch *batch, size_t at, item_read *to){
  to->status = changecap_batch_item(batch, at, &to->item);
  if( to->status != CHANGECAP_OK ) return;
  WRITTEN(to->status, &to->bytes, 255, to->table,
          changecap_batch_item_table(batch, at, to->bytes.at, to->bytes.room, &to->table));
  if( to->status != CHANGECAP_OK ) return;
  to->bytes.n = to->table;
  WRITTEN(to->status, &to->bytes, 255, to->key,
          changecap_batch_item_key(batch, at, to->bytes.at + to->table, to->bytes.room - to->table, &to->key));
}

/* The table of an item, and the row: its key, its id, or None. It is a dict; or NULL, where nothing is known. */
static PyObject *detail_of(item_read *it){
  if( it->status != CHANGECAP_OK ) return NULL;
  PyObject *row;
  if( it->item.kind != CHANGECAP_ITEM_ROW ) row = Py_NewRef(Py_None);
  else row = it->item.id ? row_id_of(it->item.id) : values_of(it->bytes.at + it->table, it->key);
  if( row == NULL ) return NULL;
  PyObject *table = PyUnicode_DecodeUTF8((char *)it->bytes.at, (Py_ssize_t)it->table, NULL);
  if( table == NULL ){
    Py_DECREF(row);
    return NULL;
  }
  return Py_BuildValue("{sNsN}", "table", table, "row", row);
}

/* Ends a transaction, which is closed then, and commits its batch: without the GIL. */
static void commit_transaction(client *self, transaction *of, commitment *made, item_read *item){
  changecap_batch batch = CHANGECAP_CLOSED;
  pthread_mutex_lock(&of->own.mutex);
  made->status = of->handle.at ? changecap_end(&of->handle, &batch) : CLOSED;
  pthread_mutex_unlock(&of->own.mutex);
  if( made->status == CHANGECAP_OK ) commit_batch(self, &batch, made);
  item->status = CHANGECAP_MISUSE;
  if( is_stale(made) ) read_item(&batch, made->fault.at, item);
  changecap_batch_close(&batch);
}

/* Takes a transaction, and a session or None. */
static PyObject *client_commit_transaction(client *self, PyObject *const *args, Py_ssize_t count){
  commitment made = { 0, 0, NULL, 0, 0, { 0, 0 } };
  item_read item = { { 0, 0 }, CHANGECAP_MISUSE, 0, 0, { NULL, 0, 0 } };
  if( !has_arguments(count, 2) ) return NULL;
  if( Py_TYPE(args[0]) != &transaction_type ){
    PyErr_SetString(PyExc_TypeError, "this is no transaction");
    return NULL;
  }
  if( !take_session(args[1], &made) ) return NULL;
  PyThreadState *saved = PyEval_SaveThread();
  commit_transaction(self, (transaction *)args[0], &made, &item);
  PyEval_RestoreThread(saved);
  PyObject *detail = detail_of(&item);
  arena_free(&item.bytes);
  if( detail == NULL ) PyErr_Clear();
  PyObject *answer = committed(&made, detail);
  Py_XDECREF(detail);
  return answer;
}

/* Commits the batch of an application, and sets its report: without the GIL. */
static void finish_application(client *self, application *of, commitment *made, item_read *item,
                               changecap_report *report){
  changecap_batch batch = CHANGECAP_CLOSED;
  pthread_mutex_lock(&of->own.mutex);
  made->status = of->handle.at ? changecap_apply_report(&of->handle, report) : CLOSED;
  if( made->status == CHANGECAP_OK ) made->status = changecap_apply_end(&of->handle, &batch, &made->fault);
  pthread_mutex_unlock(&of->own.mutex);
  if( made->status == CHANGECAP_OK ) commit_batch(self, &batch, made);
  if( is_stale(made) ) read_item(&batch, made->fault.at, item);
  changecap_batch_close(&batch);
}

/* Takes an application that is at its end. */
static PyObject *client_apply_finish(client *self, PyObject *of){
  commitment made = { 0, 0, NULL, 0, 0, { 0, 0 } };
  item_read item = { { 0, 0 }, CHANGECAP_MISUSE, 0, 0, { NULL, 0, 0 } };
  applied all = { 0, 0, 0, CHANGECAP_OK, { 0, 0, 0, 0, 0 }, { 0, 0 }, { 0, 0 } };
  if( Py_TYPE(of) != &application_type ){
    PyErr_SetString(PyExc_TypeError, "this is no application");
    return NULL;
  }
  PyThreadState *saved = PyEval_SaveThread();
  finish_application(self, (application *)of, &made, &item, &all.report);
  PyEval_RestoreThread(saved);
  PyObject *detail = detail_of(&item);
  arena_free(&item.bytes);
  if( detail == NULL ) PyErr_Clear();
  all.report.version = made.version;
  PyObject *answer = made.status == CHANGECAP_OK ? report_or_error(&all) : failed(made.status, &made.fault, -1, detail);
  Py_XDECREF(detail);
  return answer;
}

#define FAST(name) (PyCFunction)(void (*)(void))client_##name, METH_FASTCALL, NULL
static PyMethodDef client_methods[] = {
  { "join", (PyCFunction)client_join, METH_NOARGS, NULL },
  { "close", (PyCFunction)client_close, METH_NOARGS, NULL },
  { "call", (PyCFunction)client_call, METH_O, NULL },
  { "create", FAST(create) },
  { "save", (PyCFunction)client_save, METH_O, NULL },
  { "load", (PyCFunction)client_load, METH_O, NULL },
  { "apply", FAST(apply) },
  { "apply_changes", FAST(apply_changes) },
  { "apply_finish", (PyCFunction)client_apply_finish, METH_O, NULL },
  { "session_new", (PyCFunction)client_session_new, METH_NOARGS, NULL },
  { "session_drop", (PyCFunction)client_session_drop, METH_O, NULL },
  { "session_attach", FAST(session_attach) },
  { "session_filter", FAST(session_filter) },
  { "session_diff", FAST(session_diff) },
  { "session_enable", FAST(session_enable) },
  { "session_indirect", FAST(session_indirect) },
  { "session_isempty", (PyCFunction)client_session_isempty, METH_O, NULL },
  { "session_capture", (PyCFunction)client_session_capture, METH_O, NULL },
  { "session_restart", (PyCFunction)client_session_restart, METH_O, NULL },
  { "snapshot", (PyCFunction)client_snapshot, METH_NOARGS, NULL },
  { "commit", FAST(commit) },
  { "commit_many", FAST(commit_many) },
  { "commit_transaction", FAST(commit_transaction) },
  { NULL, NULL, 0, NULL },
};

PyTypeObject client_type = {
  PyVarObject_HEAD_INIT(NULL, 0)
  .tp_name = "changecap._changecap.Client",
  .tp_basicsize = sizeof(client),
  .tp_flags = Py_TPFLAGS_DEFAULT,
  .tp_weaklistoffset = offsetof(owner, weak),
  .tp_new = client_new,
  .tp_dealloc = (destructor)client_dealloc,
  .tp_methods = client_methods,
};
