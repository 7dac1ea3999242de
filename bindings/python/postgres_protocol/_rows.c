/*
 * Python objects of a server's answers, and what asks for them, many messages a call. What stands in the bytes, what is sent, and which message
 * answers which request is found by the proved library (pgp_front, pgp_row_next, pgp_get_*, pgp_stream_*, pgp_connection_*); this file makes
 * objects of it. It is written for the stable ABI, so one build serves each Python from 3.8 on.
 */
#define Py_LIMITED_API 0x03080000
#define PY_SSIZE_T_CLEAN
#include <Python.h>
#include "postgres_protocol_auth.h"

/* What a column's bytes become. The names stand in DECODERS of registry.py too. */
enum { AS_BYTES, AS_TEXT, AS_BOOL, AS_INT2, AS_INT4, AS_INT8, AS_OID, AS_FLOAT4, AS_FLOAT8, AS_TIMESTAMP, AS_TIMESTAMPTZ, AS_DATE, AS_COUNT };

/* Set by `setup`: the exception, what times are made of, the names of messages and what a message is made by. */
static PyObject *protocol_error, *delta, *epoch, *epoch_utc, *epoch_date, *before_all, *after_all, *kind_names, *message_type;

static PyObject *fail(pgp_status status, size_t at)
{
    PyObject *error = PyObject_CallFunction(protocol_error, "In", (unsigned)status, (Py_ssize_t)at);
    if (error != NULL) {
        PyErr_SetObject(protocol_error, error);
        Py_DECREF(error);
    }
    return NULL;
}

/* A time so many days or microseconds after another; the two ends of the numbers are infinity. */
static PyObject *moment(PyObject *from, int by_day, long long count, int is_first, int is_last)
{
    PyObject *difference, *moment;
    if (is_first || is_last) return Py_BuildValue("O", is_first ? before_all : after_all);
    difference = by_day ? PyObject_CallFunction(delta, "L", count) : PyObject_CallFunction(delta, "iiL", 0, 0, count);
    if (difference == NULL) return NULL;
    moment = PyNumber_Add(from, difference);
    Py_DECREF(difference);
    return moment;
}

static PyObject *fixed(int kind, const uint8_t *bytes, size_t len, size_t at)
{
    bool b;
    int16_t i2;
    int32_t i4;
    int64_t i8;
    uint32_t u4;
    uint64_t u8;
    float f4;
    double f8;
    pgp_status s;
    switch (kind) {
    case AS_BOOL:
        if ((s = pgp_get_bool(bytes, len, &b)) != PGP_OK) break;
        return PyBool_FromLong(b);
    case AS_INT2:
        if ((s = pgp_get_int2(bytes, len, &i2)) != PGP_OK) break;
        return PyLong_FromLong(i2);
    case AS_INT4:
        if ((s = pgp_get_int4(bytes, len, &i4)) != PGP_OK) break;
        return PyLong_FromLong(i4);
    case AS_INT8:
        if ((s = pgp_get_int8(bytes, len, &i8)) != PGP_OK) break;
        return PyLong_FromLongLong(i8);
    case AS_OID:
        if ((s = pgp_get_oid(bytes, len, &u4)) != PGP_OK) break;
        return PyLong_FromUnsignedLong(u4);
    case AS_FLOAT4:
        if ((s = pgp_get_float4(bytes, len, &u4)) != PGP_OK) break;
        memcpy(&f4, &u4, 4);
        return PyFloat_FromDouble(f4);
    case AS_FLOAT8:
        if ((s = pgp_get_float8(bytes, len, &u8)) != PGP_OK) break;
        memcpy(&f8, &u8, 8);
        return PyFloat_FromDouble(f8);
    case AS_DATE:
        if ((s = pgp_get_date(bytes, len, &i4)) != PGP_OK) break;
        return moment(epoch_date, 1, i4, i4 == INT32_MIN, i4 == INT32_MAX);
    default:
        if ((s = pgp_get_timestamp(bytes, len, &i8)) != PGP_OK) break;
        return moment(kind == AS_TIMESTAMP ? epoch : epoch_utc, 0, i8, i8 == INT64_MIN, i8 == INT64_MAX);
    }
    return fail(s, at);
}

/* The object of a value: by a number, or by what the decoder returns for its bytes. */
static PyObject *object(PyObject *decoder, long kind, const uint8_t *bytes, const struct pgp_column *column)
{
    const uint8_t *first = bytes + column->start;
    size_t len = column->end - column->start;
    if (column->is_null) {
        Py_INCREF(Py_None);
        return Py_None;
    }
    if (kind < 0) {
        PyObject *value, *raw = PyBytes_FromStringAndSize((const char *)first, (Py_ssize_t)len);
        if (raw == NULL) return NULL;
        value = PyObject_CallFunctionObjArgs(decoder, raw, NULL);
        Py_DECREF(raw);
        return value;
    }
    if (kind == AS_BYTES) return PyBytes_FromStringAndSize((const char *)first, (Py_ssize_t)len);
    if (kind == AS_TEXT) return PyUnicode_DecodeUTF8((const char *)first, (Py_ssize_t)len, "surrogateescape");
    return fixed((int)kind, first, len, column->start);
}

/* The row of this message; `kinds` has a number for each of `count` columns, or -1 where the decoder is called. */
static PyObject *row(PyObject *decoders, const long *kinds, Py_ssize_t count, const uint8_t *frame, const struct pgp_message *m)
{
    struct pgp_cursor cursor;
    struct pgp_column column;
    Py_ssize_t i;
    pgp_status status;
    PyObject *row;
    cursor.at = m->parts.first.at;
    cursor.end = m->parts.first.at + m->parts.first.len;
    cursor.left = m->parts.count;
    if ((row = PyTuple_New(count)) == NULL) return NULL;
    for (i = 0; (status = pgp_row_next(frame, m->frame, &cursor, &column)) == PGP_OK; i++) {
        PyObject *value = object(kinds[i] < 0 ? PyTuple_GetItem(decoders, i) : NULL, kinds[i], frame, &column);
        if (value == NULL || PyTuple_SetItem(row, i, value) != 0) {
            Py_DECREF(row);
            return NULL;
        }
    }
    if (status != PGP_DONE) {
        Py_DECREF(row);
        return fail(status, cursor.at);
    }
    return row;
}

/* Fills in the decoders' numbers. */
static int numbers(PyObject *decoders, long *kinds, Py_ssize_t count)
{
    Py_ssize_t i;
    for (i = 0; i < count; i++) {
        PyObject *decoder = PyTuple_GetItem(decoders, i);
        kinds[i] = -1;
        if (PyLong_Check(decoder)) {
            kinds[i] = PyLong_AsLong(decoder);
            if (kinds[i] < 0 || kinds[i] >= AS_COUNT) {
                if (!PyErr_Occurred()) PyErr_SetString(PyExc_ValueError, "decoders: a number that no decoder has");
                return -1;
            }
        } else if (!PyCallable_Check(decoder)) {
            PyErr_SetString(PyExc_TypeError, "decoders: numbers or functions are expected");
            return -1;
        }
    }
    return 0;
}

/* The rows from *at on, up to a message that is none of so many values, and the place behind them. */
static PyObject *read_rows(const uint8_t *bytes, size_t len, size_t *at, PyObject *decoders, const long *kinds, Py_ssize_t count)
{
    struct pgp_message m;
    PyObject *found = PyList_New(0);
    if (found == NULL) return NULL;
    /* (tags are looked at first: other messages are the caller's; so is a row of another number of values after others) */
    while (*at < len && bytes[*at] == 'D' && pgp_front(bytes + *at, len - *at, &m) == PGP_OK) {
        PyObject *next;
        int failed, differs = (Py_ssize_t)m.parts.count != count;
        if (differs && PyList_Size(found) > 0) break;
        next = differs ? PyErr_Format(PyExc_ValueError, "decoders: a row has %zu values, and there are %zd decoders", m.parts.count, count)
                       : row(decoders, kinds, count, bytes + *at, &m);
        failed = next == NULL || PyList_Append(found, next) != 0;
        Py_XDECREF(next);
        if (failed) {
            Py_DECREF(found);
            return NULL;
        }
        *at += m.frame;
    }
    return found;
}

static PyObject *rows(PyObject *self, PyObject *arguments)
{
    PyObject *data, *decoders, *found, *result = NULL;
    Py_ssize_t at = 0, len, count;
    size_t end;
    char *bytes;
    long *kinds;
    (void)self;
    if (!PyArg_ParseTuple(arguments, "SO!|n:rows", &data, &PyTuple_Type, &decoders, &at)) return NULL;
    if (PyBytes_AsStringAndSize(data, &bytes, &len) != 0) return NULL;
    if (at < 0 || at > len) return PyErr_Format(PyExc_ValueError, "at: %zd is no place of the data", at);
    count = PyTuple_Size(decoders);
    if ((kinds = PyMem_Malloc((size_t)(count + 1) * sizeof *kinds)) == NULL) return PyErr_NoMemory();
    end = (size_t)at;
    if (numbers(decoders, kinds, count) == 0 && (found = read_rows((const uint8_t *)bytes, (size_t)len, &end, decoders, kinds, count)) != NULL)
        result = Py_BuildValue("Nn", found, (Py_ssize_t)end);
    PyMem_Free(kinds);
    return result;
}

/* The rows at the front, by the decoders of their request (without any their values are bytes). Where a decoder raises, its exception; the rows are passed. */
static PyObject *batch(const uint8_t *bytes, size_t len, size_t *at, PyObject *decoders, size_t count)
{
    PyObject *found = NULL, *type, *error, *trace;
    size_t i, begin = *at;
    long *kinds;
    if (decoders != NULL && (size_t)PyTuple_Size(decoders) != count) return fail(PGP_E_INVALID_COUNT, 0);
    if ((kinds = PyMem_Malloc((count + 1) * sizeof *kinds)) == NULL) return PyErr_NoMemory();
    for (i = 0; i < count; i++) kinds[i] = AS_BYTES;
    if (decoders == NULL || numbers(decoders, kinds, (Py_ssize_t)count) == 0) found = read_rows(bytes, len, at, decoders, kinds, (Py_ssize_t)count);
    if (found == NULL && PyErr_ExceptionMatches(PyExc_Exception) && !PyErr_ExceptionMatches(protocol_error)) {
        PyErr_Fetch(&type, &error, &trace);
        PyErr_NormalizeException(&type, &error, &trace);
        Py_XDECREF(type);
        Py_XDECREF(trace);
        found = error;
        for (i = 0; i < count; i++) kinds[i] = AS_BYTES;
        *at = begin;
        Py_XDECREF(read_rows(bytes, len, at, NULL, kinds, (Py_ssize_t)count));
    }
    PyMem_Free(kinds);
    return found;
}

/* Another message than a row. */
static PyObject *message(const uint8_t *frame, size_t at, const struct pgp_message *m)
{
    const struct pgp_parts *p = &m->parts;
    const char *bytes = (const char *)frame;
    return PyObject_CallFunction(message_type, "Ony#y#y#niBn", PyTuple_GetItem(kind_names, m->kind), (Py_ssize_t)at, bytes, (Py_ssize_t)m->frame,
                                 bytes + p->first.at, (Py_ssize_t)p->first.len, bytes + p->second.at, (Py_ssize_t)p->second.len, (Py_ssize_t)p->count,
                                 (int)p->number, p->byte, (Py_ssize_t)p->first.at);
}

/* The message at the front, what it says, and which request it answers. What `pgp_connection_take` doesn't read goes to the connection's dialogue. */
static pgp_status next_message(struct pgp_connection *connection, const struct pgp_ways *ways, const uint8_t *bytes, size_t len, struct pgp_message *m, struct pgp_event *event)
{
    struct pgp_taken taken;
    uint8_t reply[1];
    size_t written;
    pgp_status status;
    if (len > 0 && (bytes[0] == 'W' || bytes[0] == 'V')) {
        status = pgp_front(bytes, len, m);
        return status == PGP_OK ? pgp_dialogue_take(&connection->dialogue, m->kind, event) : status;
    }
    status = pgp_connection_take(connection, ways, bytes, len, reply, 0, &written, &taken);
    if (status != PGP_OK) return status;
    event->name = taken.name;
    event->what = taken.what;
    return pgp_front(bytes, taken.frame, m);
}

/* The item of the message at the front, and of the rows behind it: the request that it answers, whether it is the last of the answer, and what it is. */
static PyObject *item(struct pgp_dialogue *dialogue, const uint8_t *bytes, size_t len, size_t *at, const struct pgp_message *m, struct pgp_event *event, PyObject *decoders)
{
    PyObject *what, *request = event->what == PGP_PART || event->what == PGP_LAST ? PyLong_FromUnsignedLongLong(event->name) : Py_BuildValue("");
    if (request == NULL) return NULL;
    if (m->kind == PGP_DATA_ROW) {
        what = batch(bytes, len, at, PyDict_GetItem(decoders, request), m->parts.count);
        pgp_dialogue_take(dialogue, PGP_DATA_ROW, event);  /* (of many rows the second stands for all that follow) */
    } else {
        what = message(bytes + *at, *at, m);
        *at += m->frame;
    }
    if (what != NULL) return Py_BuildValue("NNN", request, PyBool_FromLong(event->what == PGP_LAST || event->what == PGP_ENDED), what);
    Py_DECREF(request);
    return NULL;
}

static PyObject *take(PyObject *self, PyObject *arguments)
{
    unsigned long long first, second;
    PyObject *data, *decoders, *items;
    Py_ssize_t start, size;
    size_t at, len;
    char *bytes;
    struct pgp_connection *connection;
    struct pgp_message m;
    struct pgp_event event;
    pgp_status status;
    (void)self;
    if (!PyArg_ParseTuple(arguments, "KKSnO!:take", &first, &second, &data, &start, &PyDict_Type, &decoders)) return NULL;
    if (PyBytes_AsStringAndSize(data, &bytes, &size) != 0 || (items = PyList_New(0)) == NULL) return NULL;
    connection = (struct pgp_connection *)(uintptr_t)first;
    at = (size_t)start;
    len = (size_t)size;
    while ((status = next_message(connection, (const struct pgp_ways *)(uintptr_t)second, (const uint8_t *)bytes + at, len - at, &m, &event)) == PGP_OK) {
        PyObject *next;
        int failed, stops;
        /* (what follows these depends on what the caller makes of them) */
        stops = m.kind == PGP_COPY_IN_RESPONSE || (m.kind == PGP_ROW_DESCRIPTION && event.what == PGP_PART);
        next = item(&connection->dialogue, (const uint8_t *)bytes, len, &at, &m, &event, decoders);
        failed = next == NULL || PyList_Append(items, next) != 0;
        Py_XDECREF(next);
        if (failed) {
            Py_DECREF(items);
            return NULL;
        }
        if (stops) break;
    }
    return Py_BuildValue("NnI", items, (Py_ssize_t)at, (unsigned)(status == PGP_MORE ? PGP_OK : status));
}

/* What a Bind has: its values, in memory of their objects. */
static struct pgp_value *values_of(PyObject *list, size_t count)
{
    struct pgp_value *values = PyMem_Malloc((count + 1) * sizeof *values);
    size_t i;
    for (i = 0; values != NULL && i < count; i++) {
        PyObject *value = PyList_GetItem(list, (Py_ssize_t)i);
        char *bytes = NULL;
        Py_ssize_t len = 0;
        if (value != Py_None && PyBytes_AsStringAndSize(value, &bytes, &len) != 0) {
            PyMem_Free(values);
            return NULL;
        }
        values[i] = pgp_value_of(bytes, (size_t)len);
    }
    return values;
}

static PyObject *ask(PyObject *self, PyObject *arguments)
{
    unsigned long long first, second, number;
    const char *portal, *statement, *formats, *results;
    Py_ssize_t portal_len, statement_len, formats_len, results_len;
    PyObject *list;
    int max_rows, syncs;
    struct pgp_stream *stream, kept;
    struct pgp_connection *connection;
    struct pgp_dialogue before;
    struct pgp_value *values;
    size_t count;
    pgp_status status;
    (void)self;
    if (!PyArg_ParseTuple(arguments, "KKy#y#y#O!y#iKp:ask", &first, &second, &portal, &portal_len, &statement, &statement_len, &formats, &formats_len, &PyList_Type, &list,
                          &results, &results_len, &max_rows, &number, &syncs)) return NULL;
    stream = (struct pgp_stream *)(uintptr_t)first;
    connection = (struct pgp_connection *)(uintptr_t)second;
    if (connection->dialogue.room_len - connection->dialogue.end < 3) return PyLong_FromLong(-1);
    count = (size_t)PyList_Size(list);
    if ((values = values_of(list, count)) == NULL) return PyErr_Occurred() ? NULL : PyErr_NoMemory();
    kept = *stream;
    before = connection->dialogue;
    status = pgp_stream_bind(stream, (const uint8_t *)portal, (size_t)portal_len, (const uint8_t *)statement, (size_t)statement_len, (const int16_t *)formats,
                             (size_t)formats_len / 2, values, count, (const int16_t *)results, (size_t)results_len / 2);
    if (status == PGP_OK) status = pgp_stream_execute(stream, (const uint8_t *)portal, (size_t)portal_len, max_rows);
    if (status == PGP_OK && syncs) status = pgp_stream_sync(stream);
    PyMem_Free(values);
    if (status == PGP_OK) status = pgp_connection_ask(connection, PGP_REQUEST_BIND, number);
    if (status == PGP_OK) status = pgp_connection_ask(connection, PGP_REQUEST_EXECUTE, number + 1);
    if (status == PGP_OK && syncs) status = pgp_connection_ask(connection, PGP_REQUEST_SYNC, number + 2);
    if (status != PGP_OK) {
        *stream = kept;
        connection->dialogue = before;
    }
    return PyLong_FromUnsignedLong(status);
}

/* A whole number of a fixed type, where it is in its range; PGP_DONE where it isn't. */
static pgp_status put_whole(int kind, long long value, uint8_t *out, size_t *len)
{
    switch (kind) {
    case AS_INT2: return value < INT16_MIN || value > INT16_MAX ? PGP_DONE : pgp_put_int2((int16_t)value, out, 8, len);
    case AS_INT4: return value < INT32_MIN || value > INT32_MAX ? PGP_DONE : pgp_put_int4((int32_t)value, out, 8, len);
    case AS_INT8: return pgp_put_int8((int64_t)value, out, 8, len);
    case AS_OID: return value < 0 || value > UINT32_MAX ? PGP_DONE : pgp_put_oid((uint32_t)value, out, 8, len);
    default: return PGP_DONE;
    }
}

static PyObject *put(PyObject *self, PyObject *arguments)
{
    int kind, overflows;
    PyObject *otherwise, *value;
    uint8_t out[8];
    size_t len = 0;
    pgp_status status = PGP_DONE;
    (void)self;
    if (!PyArg_ParseTuple(arguments, "iOO:put", &kind, &otherwise, &value)) return NULL;
    if (PyLong_CheckExact(value)) {
        long long whole = PyLong_AsLongLongAndOverflow(value, &overflows);
        if (!overflows) status = put_whole(kind, whole, out, &len);
    } else if (kind == AS_FLOAT8 && PyFloat_CheckExact(value)) {
        double number = PyFloat_AsDouble(value);
        uint64_t bits;
        memcpy(&bits, &number, 8);
        status = pgp_put_float8(bits, out, 8, &len);
    } else if (kind == AS_BOOL && PyBool_Check(value)) {
        status = pgp_put_bool(value == Py_True, out, 8, &len);
    }
    return status == PGP_OK ? PyBytes_FromStringAndSize((const char *)out, (Py_ssize_t)len) : PyObject_CallFunctionObjArgs(otherwise, value, NULL);
}

static PyObject *setup(PyObject *self, PyObject *arguments)
{
    PyObject **kept[] = {&protocol_error, &delta, &epoch, &epoch_utc, &epoch_date, &before_all, &after_all, &kind_names, &message_type};
    size_t i;
    (void)self;
    if (!PyArg_ParseTuple(arguments, "OOOOOOOO!O", kept[0], kept[1], kept[2], kept[3], kept[4], kept[5], kept[6], &PyTuple_Type, kept[7], kept[8])) return NULL;
    for (i = 0; i < sizeof kept / sizeof *kept; i++) Py_INCREF(*kept[i]);
    Py_RETURN_NONE;
}

static PyMethodDef methods[] = {
    {"rows", rows, METH_VARARGS,
     "rows(data, decoders, at=0): the rows of the DataRow messages from a place on, each a tuple, and the place after them.\n\n"
     "`decoders` is a tuple with one entry for each column: a number of `postgres_protocol.registry`, or a function that is called with the value's\n"
     "bytes. A null is None. Reading stops at the first message that isn't a DataRow of so many values or isn't complete."},
    {"take", take, METH_VARARGS,
     "take(connection, ways, data, at, decoders): the messages from a place on, taken by the connection at an address, each with the number of its request and\n"
     "whether it is the answer's last; rows are lists, by the decoders of their request. Then the place behind them, and the status of what ends them."},
    {"ask", ask, METH_VARARGS,
     "ask(stream, connection, portal, statement, formats, values, result_formats, max_rows, number, syncs): a Bind, an Execute and perhaps a Sync, sent and\n"
     "asked with numbers from this one on. The status: -1 where the connection lacks room; nothing is changed then, nor by any other error."},
    {"put", put, METH_VARARGS, "put(kind, otherwise, value): a value of a type of one number; where it is none, what the function `otherwise` returns or raises."},
    {"setup", setup, METH_VARARGS, NULL},
    {NULL, NULL, 0, NULL},
};

static struct PyModuleDef definition = {PyModuleDef_HEAD_INIT, "_rows", NULL, -1, methods, NULL, NULL, NULL, NULL};

PyMODINIT_FUNC PyInit__rows(void)
{
    return PyModule_Create(&definition);
}
