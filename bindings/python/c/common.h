/*
 * What the sources of the extension module share.
 *
 * A call of the library is made without the GIL. Its arguments are copied, or kept by who calls, before the GIL is let
 * go, and become objects when it is held again. The mutex of an object is taken and let go without the GIL, so nothing
 * that runs in Python happens under it: who waits for it waits for a call of the library alone.
 */
#ifndef CHANGECAP_PYTHON_H
#define CHANGECAP_PYTHON_H

#define PY_SSIZE_T_CLEAN
#include <Python.h>

#include <pthread.h>

#include "changecap.h"

/* A status of this module alone: the handle is closed. */
#define CLOSED 1000

/* ---- Objects that own a handle ---- */

/* The beginning of each. The mutex is held while a call has the handle. */
typedef struct owner {
  PyObject_HEAD
  PyObject *weak;
  pthread_mutex_t mutex;
} owner;

/* A new object of a type, whose handle is closed; or NULL, and the error is set. */
void *owner_new(PyTypeObject *type);

/* Frees the object, whose handle is closed. */
void owner_free(void *object);

/* Lets go of the GIL and takes a mutex; and the other way round. */
static inline PyThreadState *enter(void *object){
  PyThreadState *saved = PyEval_SaveThread();
  pthread_mutex_lock(&((owner *)object)->mutex);
  return saved;
}
static inline void leave(void *object, PyThreadState *saved){
  pthread_mutex_unlock(&((owner *)object)->mutex);
  PyEval_RestoreThread(saved);
}

/* Makes a call with the handle of an object, and sets its status. */
#define CALL(self, status, call) \
  do{ \
    PyThreadState *saved_state = enter(self); \
    (status) = (self)->handle.at ? (call) : CLOSED; \
    leave(self, saved_state); \
  }while( 0 )

/* Closes the handle of an object: by its method; and where nobody refers to it any more, and it may be open still. */
#define CLOSE(self, call) \
  do{ \
    PyThreadState *saved_state = enter(self); \
    call(&(self)->handle); \
    leave(self, saved_state); \
  }while( 0 )
#define CLOSE_LAST(self, call) \
  do{ \
    if( (self)->handle.at ) CLOSE(self, call); \
    owner_free(self); \
  }while( 0 )

typedef struct changes { owner own; changecap_iter handle; } changes;
typedef struct capture { owner own; changecap_capture handle; } capture;
typedef struct snapshot { owner own; changecap_snapshot handle; } snapshot;
typedef struct transaction { owner own; changecap_transaction handle; } transaction;
typedef struct application { owner own; changecap_application handle; } application;

extern PyTypeObject client_type, capture_type, snapshot_type, transaction_type, application_type, changes_type,
                    decoder_type;

/* Begins an application of a blob on a snapshot, to the tables that a filter's text accepts, or with "" to all. */
PyObject *snapshot_apply(snapshot *self, PyObject *const *args, Py_ssize_t count);

/* ---- Bytes ---- */

/* Bytes that grow, with and without the GIL. */
typedef struct arena {
  uint8_t *at;
  size_t n, room;
} arena;

/* Whether there is room for so many further bytes from now on. No error is set. */
int arena_grow(arena *to, size_t more);
static inline int arena_has_room(arena *to, size_t more){
  return to->room - to->n >= more || arena_grow(to, more);
}
static inline void arena_free(arena *it){
  PyMem_RawFree(it->at);
}

/* Puts bytes last, where there is room. */
static inline void arena_put(arena *to, const void *bytes, size_t n){
  if( n ) memcpy(to->at + to->n, bytes, n);
  to->n += n;
}

/* ---- Arguments ---- */

/* Each answers whether the argument is what it is taken for. Else the error is set. */

/* The bytes of a name, a command or a filter. They are the object's own. */
typedef struct text {
  const char *at;
  size_t n;
} text;
int text_of(PyObject *from, text *to);

/* A number of so many bits. */
int number_of(PyObject *from, int bits, uint64_t *to);
int word_of(PyObject *from, uint32_t *to);

/* Whether a method has so many arguments. */
int has_arguments(Py_ssize_t given, Py_ssize_t wanted);

/* The bytes of a blob as a new reference, which nobody changes; or NULL. */
PyObject *content_of(PyObject *from);

/* ---- Records ---- */

/* Put the record of a row or a key last; and that of the new values of an update. */
int put_record(arena *to, PyObject *values, const char *what);
int put_assignments(arena *to, PyObject *fields);

/* Puts the record of a key last, or sets the id of a row that has none. */
int put_named(arena *to, PyObject *row, uint64_t *id);

/* The next value of a record, and where the one behind it begins. Of a field that is undefined the value is NULL, and
 * so it is with the error set. */
PyObject *next_value(const uint8_t **at, int *is_undefined);

/* The values of a record as a tuple. */
PyObject *values_of(const uint8_t *at, size_t n);

/* ---- Operations ---- */

/* An operation, whose records are places in the bytes of a list. */
typedef struct operation {
  uint32_t op, cause;
  uint64_t id;
  size_t table, n, key, m, fields, len;
} operation;

typedef struct operations {
  operation *at;
  size_t n, room;
  arena bytes;
} operations;

void operations_free(operations *it);

/* Put operations last: the one that a tuple is; and the inserts of rows into a table. */
int take_operation(operations *to, PyObject *from);
int take_rows(operations *to, PyObject *table, PyObject *rows);

/* Makes an operation, without the GIL: of a batch, or of a transaction where there is no batch. */
uint32_t make_operation(const operations *all, size_t at, changecap_batch *batch, changecap_transaction *transaction,
                        changecap_fault *fault);

/* ---- Rows ---- */

/* What was read without the GIL: how it went, and the rows, each with its id, its columns and its record. */
typedef struct reading {
  uint32_t status;
  changecap_fault fault;
  arena bytes;
  size_t count;
} reading;

/* Reads all of the rows, and closes them. Made without the GIL. */
void read_rows(changecap_rows *rows, reading *to);

/* The rows as a list; the only one, or None. The reading is freed. */
PyObject *rows_of(reading *it);
PyObject *row_of(reading *it);

/* ---- Answers ---- */

/* What the module was given by changecap/__init__.py. */
extern PyObject *error_of, *row_class, *row_id_class, *change_class, *sequence_class, *mapping_class;

/* Sets the error of a status, and answers NULL. `at` is the place of a refusal, or -1. The others may be NULL. */
PyObject *failed(uint32_t status, const changecap_fault *fault, long long at, PyObject *detail);

/* None, or the error of a status. */
PyObject *answered(uint32_t status, const changecap_fault *fault, long long at);

/* The id of a row that has no key. */
PyObject *row_id_of(uint64_t id);

/* A status of a call that takes records: those that are none are misuse. */
static inline uint32_t of_records(uint32_t status){
  return status == CHANGECAP_MALFORMED ? CHANGECAP_MISUSE : status;
}

/* The bytes that a call writes, of which `room` is there at first. The call is made again with the room that it asks
 * for. Made without the GIL. `length` is a size_t. */
#define WRITTEN(status, to, first, length, call) \
  do{ \
    (status) = CHANGECAP_NOMEM; \
    if( arena_has_room(to, first) ){ \
      while( ((status) = (call)) == CHANGECAP_ROOM ) \
        if( !arena_has_room(to, length) ){ \
          (status) = CHANGECAP_NOMEM; \
          break; \
        } \
    } \
  }while( 0 )

/* The room for what is written of a capture at first: most fit. */
enum { FIRST_ROOM = 1 << 16 };

extern PyMethodDef blob_calls[];

/* Makes the names of the operations, once. Answers -1 with the error set. */
int name_operations(void);

#endif
