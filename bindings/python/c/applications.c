/* Applications that stop at each conflict, on a snapshot. */
#include "common.h"

static const changecap_fault no_fault;

/* Takes the place of a refusal, where it is one of a change: 15 and 16 are. */
static long long place_of(const changecap_fault *fault){
  return fault->kind == CHANGECAP_E_ABORTED || fault->kind == CHANGECAP_E_MISUSE ? (long long)fault->at : -1;
}

PyObject *snapshot_apply(snapshot *self, PyObject *const *args, Py_ssize_t count){
  changecap_fault fault = { 0, 0 };
  uint32_t status;
  text filter;
  if( !has_arguments(count, 2) || !text_of(args[1], &filter) ) return NULL;
  PyObject *blob = content_of(args[0]);
  if( blob == NULL ) return NULL;
  application *made = owner_new(&application_type);
  if( made != NULL ){
    CALL(self, status, changecap_apply_open(&self->handle, PyBytes_AS_STRING(blob), (size_t)PyBytes_GET_SIZE(blob),
                                            filter.at, filter.n, &made->handle, &fault));
    if( status != CHANGECAP_OK ){
      Py_DECREF(made);
      made = NULL;
      failed(status, &fault, -1, NULL);
    }
  }
  Py_DECREF(blob);
  return (PyObject *)made;
}

/* The conflict at which an application stands, as it was read without the GIL. */
typedef struct met {
  uint32_t kind;
  uint64_t number;
  size_t len;
  int has_row;
  arena row;
} met;

/* Reads the conflict, if there is one: ROW, DONE, or why not. */
static uint32_t read_met(changecap_application *handle, met *to){
  uint32_t status, step = changecap_apply_step(handle);
  if( step != CHANGECAP_ROW ) return step;
  changecap_apply_kind(handle, &to->kind);
  changecap_apply_number(handle, &to->number);
  WRITTEN(status, &to->row, 256, to->len, changecap_apply_present(handle, to->row.at, to->row.room, &to->len));
  to->has_row = status == CHANGECAP_OK;
  /* Where there is no row, there is none to be written. */
  return status == CHANGECAP_OK || status == CHANGECAP_MISUSE ? step : status;
}

/* The kind of the conflict, the number of the change and the row that is there, or None; at the end None. */
static PyObject *application_step(application *self, PyObject *Py_UNUSED(none)){
  met found = { 0, 0, 0, 0, { NULL, 0, 0 } };
  uint32_t status;
  CALL(self, status, read_met(&self->handle, &found));
  PyObject *answer = NULL;
  if( status == CHANGECAP_DONE ) answer = Py_NewRef(Py_None);
  else if( status != CHANGECAP_ROW ) failed(status, &no_fault, -1, NULL);
  else{
    PyObject *row = found.has_row ? values_of(found.row.at, found.len) : Py_NewRef(Py_None);
    if( row != NULL ) answer = Py_BuildValue("IKN", (unsigned)found.kind, (unsigned long long)found.number, row);
  }
  arena_free(&found.row);
  return answer;
}

static PyObject *application_answer(application *self, PyObject *number){
  changecap_fault fault = { 0, 0 };
  uint32_t status, answer;
  if( !word_of(number, &answer) ) return NULL;
  CALL(self, status, changecap_apply_answer(&self->handle, answer, &fault));
  return answered(status, &fault, place_of(&fault));
}

static PyObject *application_answer_row(application *self, PyObject *values){
  changecap_fault fault = { 0, 0 };
  arena row = { NULL, 0, 0 };
  uint32_t status;
  if( !put_record(&row, values, "a row is a tuple or a list of values, as in (1, \"x\")") ){
    arena_free(&row);
    return NULL;
  }
  CALL(self, status, of_records(changecap_apply_answer_row(&self->handle, row.at, row.n, &fault)));
  arena_free(&row);
  return answered(status, &fault, -1);
}

/* Writes the rebase buffer, without the GIL. */
static uint32_t write_buffer(changecap_application *handle, arena *out, size_t *len){
  uint32_t status;
  WRITTEN(status, out, 256, *len, changecap_apply_buffer(handle, CHANGECAP_KEYS_PLACES, out->at, out->room, len));
  return status;
}

/* The rebase buffer of the application. */
static PyObject *application_buffer(application *self, PyObject *Py_UNUSED(none)){
  arena out = { NULL, 0, 0 };
  uint32_t status;
  size_t len = 0;
  CALL(self, status, write_buffer(&self->handle, &out, &len));
  PyObject *bytes = status == CHANGECAP_OK ? PyBytes_FromStringAndSize((char *)out.at, (Py_ssize_t)len)
                                           : failed(status, &no_fault, -1, NULL);
  arena_free(&out);
  return bytes;
}

static PyObject *application_close(application *self, PyObject *Py_UNUSED(none)){
  CLOSE(self, changecap_apply_close);
  Py_RETURN_NONE;
}

static void application_dealloc(application *self){
  CLOSE_LAST(self, changecap_apply_close);
}

static PyMethodDef application_methods[] = {
  { "step", (PyCFunction)application_step, METH_NOARGS, NULL },
  { "answer", (PyCFunction)application_answer, METH_O, NULL },
  { "answer_row", (PyCFunction)application_answer_row, METH_O, NULL },
  { "buffer", (PyCFunction)application_buffer, METH_NOARGS, NULL },
  { "close", (PyCFunction)application_close, METH_NOARGS, NULL },
  { NULL, NULL, 0, NULL },
};

PyTypeObject application_type = {
  PyVarObject_HEAD_INIT(NULL, 0)
  .tp_name = "changecap._changecap.Application",
  .tp_basicsize = sizeof(application),
  .tp_flags = Py_TPFLAGS_DEFAULT | Py_TPFLAGS_DISALLOW_INSTANTIATION,
  .tp_dealloc = (destructor)application_dealloc,
  .tp_methods = application_methods,
};
