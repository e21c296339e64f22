/* The module changecap._changecap: the calls of changecap.h, for the package changecap alone. */
#include "common.h"

PyObject *error_of, *row_class, *row_id_class, *change_class, *sequence_class, *mapping_class;

/* ---- Objects that own a handle ---- */

void *owner_new(PyTypeObject *type){
  owner *made = (owner *)type->tp_alloc(type, 0);
  if( made == NULL ) return NULL;
  if( pthread_mutex_init(&made->mutex, NULL) == 0 ) return made;
  type->tp_free(made);
  PyErr_NoMemory();
  return NULL;
}

void owner_free(void *object){
  pthread_mutex_destroy(&((owner *)object)->mutex);
  Py_TYPE(object)->tp_free(object);
}

/* ---- Answers ---- */

PyObject *failed(uint32_t status, const changecap_fault *fault, long long at, PyObject *detail){
  if( status == CHANGECAP_NOMEM && detail == NULL ) return PyErr_NoMemory();
  if( status == CLOSED ){
    PyErr_SetString(PyExc_ValueError, "it is closed");
    return NULL;
  }
  PyObject *error = PyObject_CallFunction(error_of, "IInLO", (unsigned)status, (unsigned)fault->kind,
                                          (Py_ssize_t)fault->at, at, detail ? detail : Py_None);
  if( error == NULL ) return NULL;
  PyErr_SetObject((PyObject *)Py_TYPE(error), error);
  Py_DECREF(error);
  return NULL;
}

PyObject *answered(uint32_t status, const changecap_fault *fault, long long at){
  return status == CHANGECAP_OK ? Py_NewRef(Py_None) : failed(status, fault, at, NULL);
}

/* ---- The module ---- */

/* Takes what the package has in Python: the function that makes an error, and the classes of what is read. The two of
 * tuples have no members of their own. */
static PyObject *set_up(PyObject *Py_UNUSED(module), PyObject *args){
  PyObject **kept[] = { &error_of, &row_class, &row_id_class, &change_class, &sequence_class, &mapping_class };
  PyObject *given[6];
  if( !PyArg_ParseTuple(args, "OO!O!O!OO", &given[0], &PyType_Type, &given[1], &PyType_Type, &given[2], &PyType_Type,
                        &given[3], &given[4], &given[5]) )
    return NULL;
  for(int i = 1; i <= 3; i += 2){
    PyTypeObject *class = (PyTypeObject *)given[i];
    if( PyType_IsSubtype(class, &PyTuple_Type) && class->tp_basicsize == PyTuple_Type.tp_basicsize ) continue;
    PyErr_SetString(PyExc_TypeError, "the classes of rows and changes are named tuples");
    return NULL;
  }
  for(int i = 0; i < 6; i++){
    PyObject *before = *kept[i];
    *kept[i] = Py_NewRef(given[i]);
    Py_XDECREF(before);
  }
  Py_RETURN_NONE;
}

static PyObject *errstr(PyObject *Py_UNUSED(module), PyObject *status){
  uint32_t number;
  return word_of(status, &number) ? PyUnicode_FromString(changecap_errstr(number)) : NULL;
}

static PyMethodDef own_calls[] = {
  { "errstr", errstr, METH_O, NULL },
  { "set_up", set_up, METH_VARARGS, NULL },
  { NULL, NULL, 0, NULL },
};

static PyModuleDef definition = {
  PyModuleDef_HEAD_INIT,
  .m_name = "changecap._changecap",
  .m_size = -1,
  .m_methods = own_calls,
};

/* Adds the types and what else the module has. */
static int fill(PyObject *module){
  PyTypeObject *types[] = { &client_type, &capture_type, &snapshot_type, &transaction_type, &application_type,
                            &changes_type, &decoder_type };
  for(size_t i = 0; i < sizeof types / sizeof *types; i++)
    if( PyModule_AddType(module, types[i]) < 0 ) return -1;
  return PyModule_AddStringConstant(module, "VERSION", changecap_version());
}

PyMODINIT_FUNC PyInit__changecap(void){
  PyObject *module = PyModule_Create(&definition);
  if( module == NULL ) return NULL;
#ifdef Py_GIL_DISABLED
  PyUnstable_Module_SetGIL(module, Py_MOD_GIL_NOT_USED);
#endif
  if( name_operations() == 0 && fill(module) == 0 && PyModule_AddFunctions(module, blob_calls) == 0 ) return module;
  Py_DECREF(module);
  return NULL;
}
