/*
 * The module `_native` of the package for Python, over the stable ABI of CPython 3.11: the calls of the library, and the base of
 * `Layout`. Here arguments are read and results made; the library decides. What isn't usual, and each error, the package itself reads
 * and makes, in Python. `_native.pyi` has the types and the documentation of all that is public, of which `docs_of_native.py` makes
 * `native_docs.h`. `bindings/python/build_native` compiles this, and links libndarray_layout.a.
 */
#define PY_SSIZE_T_CLEAN
#define Py_LIMITED_API 0x030B0000
#include <Python.h>
#include <string.h>

#include "ndarray_layout.h"
#include "native_docs.h"

#include "numbers.h"

static PyObject *View, *OutOfBoundsError; /* the package's classes, which `bind` keeps */

#include "reasons.h"
#include "calls.h"
#include "accepted.h"
#include "layout.h"
#include "axes.h"
#include "arrays.h"
#include "chunks.h"

/* ---- The class ------------------------------------------------------------------------------------------------------- */

#define FAST(function) ((PyCFunction)(void (*)(void))(function))

static PyMethodDef methods[] = {
    {"over", FAST(over), METH_FASTCALL | METH_KEYWORDS | METH_CLASS, DOC_Layout_over},
    {"of", FAST(layout_of), METH_FASTCALL | METH_KEYWORDS | METH_CLASS, DOC_Layout_of},
    {"slice", FAST(slice_elems), METH_FASTCALL | METH_KEYWORDS, DOC_Layout_slice},
    {"permuted_axes", FAST(permuted_by), METH_FASTCALL | METH_KEYWORDS, DOC_Layout_permuted_axes},
    {"transpose", FAST(transpose), METH_FASTCALL, DOC_Layout_transpose},
    {"swapaxes", FAST(swapaxes), METH_FASTCALL | METH_KEYWORDS, DOC_Layout_swapaxes},
    {"squeeze", FAST(squeeze), METH_FASTCALL | METH_KEYWORDS, DOC_Layout_squeeze},
    {"diagonal", FAST(diagonal), METH_FASTCALL | METH_KEYWORDS, DOC_Layout_diagonal},
    {"reshape", FAST(reshape_layout), METH_FASTCALL | METH_KEYWORDS, DOC_Layout_reshape},
    {"ravel", FAST(ravel), METH_FASTCALL | METH_KEYWORDS, DOC_Layout_ravel},
    {"place", FAST(place_of), METH_FASTCALL | METH_KEYWORDS, DOC_Layout_place},
    {"_kept", FAST(kept), METH_FASTCALL, NULL},
    {"_intersect", FAST(layout_keys_intersect), METH_FASTCALL, NULL},
    {NULL, NULL, 0, NULL},
};

static PyGetSetDef fields[] = {
    FIELD(start, START),
    FIELD(shape, SHAPE),
    FIELD(strides, STRIDES),
    FIELD(length, LENGTH),
    FIELD(writable, WRITABLE),
    FIELD(itemsize, ITEMSIZE),
    FIELD(format, FORMAT),
    FIELD(byte_strides, BYTE_STRIDES),
    FIELD(ndim, NDIM),
    FIELD(size, SIZE),
    FIELD(nbytes, NBYTES),
    FIELD(T, TRANSPOSED),
    {"is_contiguous", asked, NULL, DOC_Layout_is_contiguous, &say_contiguous},
    {"is_layout_c", asked, NULL, DOC_Layout_is_layout_c, &say_c},
    {"is_layout_f", asked, NULL, DOC_Layout_is_layout_f, &say_f},
    {"has_overlap", asked, NULL, DOC_Layout_has_overlap, &say_overlap},
    {NULL, NULL, NULL, NULL, NULL},
};

static PyMemberDef members[] = {
    {"__weaklistoffset__", T_PYSSIZET, offsetof(Layout, references), READONLY, NULL},
    {NULL, 0, 0, 0, NULL},
};

static PyType_Slot slots[] = {
    {Py_tp_doc, DOC_Layout},       {Py_tp_new, new_accepted},     {Py_tp_dealloc, dealloc},
    {Py_tp_methods, methods},      {Py_tp_getset, fields},        {Py_tp_members, members},
    {Py_mp_subscript, subscript},  {Py_tp_richcompare, compare},  {Py_tp_hash, hash},
    {0, NULL},
};

static PyType_Spec spec = {"ndarray_layout._native.Layout", sizeof(Layout), 0, Py_TPFLAGS_DEFAULT | Py_TPFLAGS_BASETYPE, slots};

/* ---- The module ------------------------------------------------------------------------------------------------------ */

/* bind(View, OutOfBoundsError): the package's classes. It comes first, and once. */
static PyObject *bind(PyObject *self, PyObject *const *args, Py_ssize_t count) {
    (void)self;
    if (count != 2) return PyErr_Format(PyExc_TypeError, "bind() takes 2 arguments");
    View = Py_NewRef(args[0]);
    OutOfBoundsError = Py_NewRef(args[1]);
    Py_RETURN_NONE;
}

/* version(): that of the library. */
static PyObject *version(PyObject *self, PyObject *none) {
    (void)self, (void)none;
    return PyUnicode_FromString(ND_VERSION);
}

#define CALL(name) {#name, FAST(name), METH_FASTCALL | METH_KEYWORDS, DOC_##name}
#define FUNCTION(name) {#name, FAST(name), METH_FASTCALL, NULL}

static PyMethodDef functions[] = {
    CALL(has_overlap), CALL(has_distinct_places), CALL(is_contiguous), CALL(is_layout_c), CALL(is_layout_f), CALL(default_strides),
    CALL(fortran_strides), CALL(place), CALL(next_index), CALL(places), CALL(rows), CALL(joined_rows), CALL(slice_view),
    CALL(slices_intersect), CALL(picked), CALL(broadcast), CALL(merge_axes), CALL(reshape), CALL(permuted_axes), CALL(windows),
    CALL(exact_chunks), CALL(split_at), CALL(layout_start), CALL(check_layout), CALL(lay_over),
    {"broadcast_shapes", FAST(broadcast_shapes), METH_FASTCALL, DOC_broadcast_shapes},
    FUNCTION(first_shared), FUNCTION(share_index), FUNCTION(share), FUNCTION(share_keys), FUNCTION(intersect), FUNCTION(share_chunk),
    FUNCTION(reason), {"reason_text", reason_text, METH_O, NULL}, {"address", address, METH_O, NULL}, {"tensor", tensor, METH_O, NULL},
    FUNCTION(bind), {"version", version, METH_NOARGS, NULL}, {NULL, NULL, 0, NULL},
};

static PyModuleDef module = {PyModuleDef_HEAD_INIT, "ndarray_layout._native", NULL, -1, functions, NULL, NULL, NULL, NULL};

PyMODINIT_FUNC PyInit__native(void) {
    PyObject *const made = PyModule_Create(&module);
    if (made == NULL) return NULL;
    LayoutBase = (PyTypeObject *)PyType_FromSpec(&spec);
    if (LayoutBase != NULL && PyModule_AddObjectRef(made, "Layout", (PyObject *)LayoutBase) == 0) return made;
    Py_DECREF(made);
    return NULL;
}
