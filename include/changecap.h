/*
 * changecap.h - changesets and patchsets of SQLite's session extension, from verified code.
 *
 * The calls of the library libchangecap.a. Each is proved to do what is said of it here, as far as
 * docs/design/promises.md of the sources says; what a caller has to see to, nothing checks.
 *
 * Every call
 *   - answers a status: CHANGECAP_OK, or why it did nothing;
 *   - keeps nothing of the caller's but what a handle owns, and reads and writes the rest only until it returns;
 *   - may answer CHANGECAP_NOMEM: then it has changed nothing, unless said otherwise, and may be made again.
 *
 * A caller sees to it that
 *   - no pointer is NULL, but that of bytes, or of a buffer, may be where their number, or its room, is 0;
 *   - what a call writes overlaps nothing else that the call is given;
 *   - each handle is used by one call at a time: it may go to another thread between two calls that are ordered, as by
 *     a lock, or by the start or the end of a thread;
 *   - no thread changes what a call reads, or reads what a call writes, while the call runs;
 *   - the calls are not made in a signal handler, nor in the forked child of a process that has threads.
 *
 * Calls on different handles may run at once, whatever these have in common: a history has a client for each thread.
 * Memory comes from malloc, realloc and free of the program.
 *
 *     uint8_t *out = malloc(n);
 *     size_t len;
 *     changecap_fault fault;
 *     switch( changecap_invert(changeset, n, CHANGECAP_KEYS_PLACES, out, n, &len, &fault) ){
 *       case CHANGECAP_OK:        fwrite(out, 1, len, stdout); break;
 *       case CHANGECAP_MALFORMED: fprintf(stderr, "D%u at %zu\n", fault.kind, fault.at); break;
 *       case CHANGECAP_PATCHSET:  fputs("only a changeset has an inverse\n", stderr); break;
 *       case CHANGECAP_NOMEM:     fputs("out of memory\n", stderr); break;
 *     }
 *     free(out);
 */
#ifndef CHANGECAP_H
#define CHANGECAP_H

#include <stddef.h>
#include <stdint.h>
#include <string.h>

#ifdef __cplusplus
extern "C" {
#endif

/* ---- The version ---- */

#define CHANGECAP_VERSION "0.1.0"

/* The version of the library: CHANGECAP_VERSION of the header that it was made with. */
const char *changecap_version(void);

/* ---- Statuses ---- */

#define CHANGECAP_OK        0 /* the call did what it says */
#define CHANGECAP_MALFORMED 1 /* the bytes are no blob, or no record: the fault is set */
#define CHANGECAP_ROOM      2 /* the buffer is too short: the length that it takes is set */
#define CHANGECAP_NOMEM     3 /* out of memory */
#define CHANGECAP_PATCHSET  4 /* a patchset, where only a changeset serves */
#define CHANGECAP_MISUSE    5 /* an argument that the call has no meaning for */
#define CHANGECAP_REFUSED   6 /* the rules refuse the command: its reply, or the fault, says why */
#define CHANGECAP_COMMAND   7 /* the text is not one command: the fault is set */
#define CHANGECAP_FULL      8 /* the history has 2^63 - 1 events */
#define CHANGECAP_KIND      9 /* a changeset where the blob before it is a patchset, or the other way round */
#define CHANGECAP_COLUMNS  10 /* a table that had other columns, or another key, before */
#define CHANGECAP_FILTER   11 /* the text is no filter: the fault is set */
#define CHANGECAP_BUSY     12 /* another call has the state of the history: the call may be made again */
#define CHANGECAP_OVERTAKEN 13 /* S1 of docs/manual/threads.md; never, where a client has one call at a time */
#define CHANGECAP_CLIENTS  14 /* the history has 64 clients */
#define CHANGECAP_ROW     100 /* the iterator is at a change, or the rows are at one of them */
#define CHANGECAP_DONE    101 /* the iterator is behind the last change, or the rows are behind the last one */

/* A status in words, as sqlite3_errstr. The text is never freed. */
const char *changecap_errstr(uint32_t status);

/* ---- Faults of blobs ---- */

/* The first fault from left to right: its number as in docs/manual/formats.md ("Reading"), and its offset in bytes
 * from 0. */
typedef struct changecap_fault {
  uint32_t kind;
  size_t at;
} changecap_fault;

#define CHANGECAP_TRUNCATED  1 /* the bytes end inside a header or a change */
#define CHANGECAP_BAD_HEADER 2 /* no kind, no such number of columns, or no key column */
#define CHANGECAP_BAD_VARINT 3
#define CHANGECAP_BAD_NAME   4
#define CHANGECAP_BAD_OP     5 /* a byte that begins neither a change nor a group */
#define CHANGECAP_BAD_FIELD  6
#define CHANGECAP_REAL       7 /* a REAL value, which changecap has not */
#define CHANGECAP_BAD_TEXT   8 /* a text that is not UTF-8 */
#define CHANGECAP_BAD_RECORD 9 /* a field that is defined, or not, against the rules */
#define CHANGECAP_MIXED     10 /* a changeset's group after a patchset's, or the other way round */

/* ---- Refusals ---- */

/* Why the rules refuse a command, as E1 to E20 of docs/manual/rules.md: fault->kind where the status is REFUSED, and
 * where it is FILTER. */
#define CHANGECAP_E_TOO_LONG      1 /* a text or a blob has more than 1,000,000,000 bytes */
#define CHANGECAP_E_BAD_SCHEMA    2 /* a table is to have no column, or more than 2,000 */
#define CHANGECAP_E_WRONG_WIDTH   3 /* a row has more or fewer values than its table has columns */
#define CHANGECAP_E_BAD_COLUMN    4 /* an update names a column outside the table, or one twice */
#define CHANGECAP_E_DUPLICATE     5 /* another row has the primary key already */
#define CHANGECAP_E_NO_ROW        6 /* no row has the key, or the id */
#define CHANGECAP_E_IDS_SPENT     7 /* a row without a key is to be made, and id 2^63 - 1 was given */
#define CHANGECAP_E_NO_TABLE      8 /* no table has the name */
#define CHANGECAP_E_TABLE_EXISTS  9 /* a table has the name already */
#define CHANGECAP_E_TOO_MANY     10 /* one more than a limit allows */
#define CHANGECAP_E_STALE        11 /* another version, or what the transaction looked at has changed: begin again */
#define CHANGECAP_E_BAD_FILTER   12 /* a text is no filter */
#define CHANGECAP_E_TOO_DEEP     13 /* a filter has more than 32 levels or 1,000 nodes */
#define CHANGECAP_E_INCOMPATIBLE 14 /* the saved table of a diff is missing, or has other columns */
#define CHANGECAP_E_ABORTED      15 /* the answer to a conflict is CHANGECAP_ABORT */
#define CHANGECAP_E_MISUSE       16 /* the answer is CHANGECAP_REPLACE where there is no row */
#define CHANGECAP_E_BAD_NAME     17 /* a name is empty, longer than 255 bytes, or has a zero byte */
#define CHANGECAP_E_NO_SESSION   18 /* no live session has the number */
#define CHANGECAP_E_NO_DATABASE  19 /* no saved database has the name */
#define CHANGECAP_E_NO_MARK      20 /* no savepoint has the mark, or it was undone */

/* ---- Key flags ---- */

/* What is written at each key column in the header of a group. SQLite's documentation says the first; its code writes
 * the second, and its applier passes over a group with a key of several columns that has the first. */
#define CHANGECAP_KEYS_ONES   0 /* 01 */
#define CHANGECAP_KEYS_PLACES 1 /* the place within the key: 01, 02, .. */

/* ---- Bytes ---- */

/* The pointer, or one that is not NULL. SQLite gives NULL for a changeset of no bytes, and so may a caller here. */
static inline const void *changecap_bytes(const void *bytes){
  return bytes ? bytes : "";
}

/* The buffer, or one of no bytes that is not NULL. */
static inline void *changecap_room(void *out){
  static uint8_t none;
  return out ? out : &none;
}

/* ---- Handles ---- */

/* What a handle is before a call opens it, and again when one has closed it; in between it owns memory. Its at is NULL
 * while it is closed, and else nothing for the caller. */
#ifdef __cplusplus
#define CHANGECAP_CLOSED {}
#else
#define CHANGECAP_CLOSED { 0 }
#endif

/* ---- Whole blobs ---- */

/* Whether the n bytes are a changeset or a patchset. Zero bytes are the empty changeset.
 *   OK, MALFORMED (*fault), NOMEM. */
uint32_t changecap_check(const void *blob, size_t n, changecap_fault *fault);

/* The inverse of a changeset, as sqlite3changeset_invert. Writes it to the beginning of out, which has room for that
 * many bytes, and its length to *len. It is no longer than the changeset.
 *   OK (*len), MALFORMED (*fault), ROOM (*len), NOMEM, PATCHSET, MISUSE (no such key_flags).
 * Unless the status is OK, out is as it was. */
uint32_t changecap_invert(const void *blob, size_t n, uint32_t key_flags, void *out, size_t room, size_t *len,
                          changecap_fault *fault);

/* The patchset of a changeset, as sqlite3session_patchset would have written it, in no more bytes.
 *   The rest as of changecap_invert. */
uint32_t changecap_patchset(const void *blob, size_t n, uint32_t key_flags, void *out, size_t room, size_t *len,
                            changecap_fault *fault);

/* The concatenation of two changesets or of two patchsets, as sqlite3changeset_concat: one change for each row that
 * both have changed, the tables in the order of their first change, the changes of a table in that of their keys. A
 * blob without changes is of either kind. *blob is the number of the blob that is refused: 0 of the first, 1 of the
 * second.
 *   OK (*len), MALFORMED (*fault, *blob), ROOM (*len), NOMEM, MISUSE (no such key_flags), KIND (*blob),
 *   COLUMNS (*blob).
 * Unless the status is OK, out is as it was. */
uint32_t changecap_concat(const void *first, size_t n, const void *second, size_t m, uint32_t key_flags,
                          void *out, size_t room, size_t *len, changecap_fault *fault, size_t *blob);

/* A changeset of a client's own over the buffers of its applications (changecap_iter_buffer), one behind the other in
 * the order of the applications, as sqlite3rebaser_rebase: what it has to be, so that where the applied changesets
 * come from it meets no conflict and leaves the rows that the client has (docs/manual/applying.md). The changes keep
 * their order. *blob is the number of what is refused: 0 of the changeset, 1 of the buffers.
 *   OK (*len), MALFORMED (*fault, *blob), ROOM (*len), NOMEM, PATCHSET (*blob), MISUSE (no such key_flags),
 *   COLUMNS (*blob).
 * Unless the status is OK, out is as it was. */
uint32_t changecap_rebase(const void *changeset, size_t n, const void *buffers, size_t m, uint32_t key_flags,
                          void *out, size_t room, size_t *len, changecap_fault *fault, size_t *blob);

/* A changeset or a patchset as JSON: an array with an object for each change, and a line feed, in UTF-8 without a
 * zero byte at its end. An object has the "table", the "op" ("insert", "update" or "delete"), whether it is
 * "indirect", the names of the "key" columns, and its "old" and "new" values by column. Columns are "c0", "c1" and so
 * on. A value is null, a number, a string, or an object whose "blob" has hex digits. An update of a patchset has its
 * key in "new" too.
 *   OK (*len), MALFORMED (*fault), ROOM (*len), NOMEM.
 * Unless the status is OK, out is as it was. */
uint32_t changecap_json(const void *blob, size_t n, void *out, size_t room, size_t *len, changecap_fault *fault);

/* ---- Changes of a blob ---- */

/* An iterator over the changes of a changeset or a patchset. It owns what it has read, not the blob.
 *
 *     changecap_iter it = CHANGECAP_CLOSED;
 *     changecap_change change;
 *     changecap_value value;
 *     if( changecap_iter_open(blob, n, &it, &fault) == CHANGECAP_OK ){
 *       while( changecap_iter_next(&it) == CHANGECAP_ROW ){
 *         changecap_iter_op(&it, &change);
 *         for(size_t column = 0; column < change.columns; column++){
 *           changecap_iter_new(&it, column, &value);
 *           if( value.type == CHANGECAP_INTEGER ) printf("%lld\n", (long long)value.number);
 *         }
 *       }
 *       changecap_iter_close(&it);
 *     }
 */
typedef struct changecap_iter { void *at; } changecap_iter;

typedef struct changecap_change {
  uint32_t op;       /* SQLite's numbers: 18 INSERT, 23 UPDATE, 9 DELETE */
  uint32_t indirect; /* 0 or 1 */
  uint32_t patchset; /* 0 or 1 */
  size_t columns;    /* of its table */
} changecap_change;

#define CHANGECAP_DELETE  9
#define CHANGECAP_INSERT 18
#define CHANGECAP_UPDATE 23

typedef struct changecap_value {
  uint32_t type;  /* SQLite's numbers, or 0 where the field is undefined */
  int64_t number; /* of an INTEGER, else 0 */
  size_t len;     /* bytes of a TEXT or a BLOB, else 0 */
} changecap_value;

#define CHANGECAP_UNDEFINED 0
#define CHANGECAP_INTEGER   1
#define CHANGECAP_TEXT      3 /* UTF-8, without a zero byte at its end */
#define CHANGECAP_BLOB      4
#define CHANGECAP_NULL      5

/* Opens a closed iterator before the first change of the blob, all of which is read.
 *   OK, MALFORMED (*fault), NOMEM. Unless the status is OK the iterator stays closed. */
uint32_t changecap_iter_open(const void *blob, size_t n, changecap_iter *it, changecap_fault *fault);

/* Goes to the next change. The rest takes an open iterator too.
 *   ROW, or DONE behind the last change, and from then on. */
uint32_t changecap_iter_next(changecap_iter *it);

/* Sets *change to what the change is.
 *   OK, MISUSE (there is no change: before the first, behind the last). */
uint32_t changecap_iter_op(changecap_iter *it, changecap_change *change);

/* Writes the name of the change's table, 1 to 255 bytes of UTF-8, without a zero byte at its end.
 *   OK (*len), ROOM (*len), MISUSE. */
uint32_t changecap_iter_table(changecap_iter *it, void *out, size_t room, size_t *len);

/* Sets *is_key to 1 where a column, from 0 on, is in the key of the change's table, and else to 0.
 *   OK, MISUSE (there is no change, or no such column). */
uint32_t changecap_iter_key(changecap_iter *it, size_t column, uint32_t *is_key);

/* Set *value to that of a column before or after the change, as sqlite3changeset_old and sqlite3changeset_new. In a
 * patchset an UPDATE has its key columns before, and its modified columns after. An INSERT has no value before, and a
 * DELETE none after: each is undefined.
 *   OK, MISUSE (there is no change, or no such column). */
uint32_t changecap_iter_old(changecap_iter *it, size_t column, changecap_value *value);
uint32_t changecap_iter_new(changecap_iter *it, size_t column, changecap_value *value);

/* Write the bytes of a TEXT or a BLOB; any other value, or an undefined one, has none.
 *   OK (*len), ROOM (*len), MISUSE (as above). */
uint32_t changecap_iter_old_bytes(changecap_iter *it, size_t column, void *out, size_t room, size_t *len);
uint32_t changecap_iter_new_bytes(changecap_iter *it, size_t column, void *out, size_t room, size_t *len);

/* Write the record of the row before or after the change: a field for each column, undefined where there is no value.
 *   OK (*len), ROOM (*len), MISUSE, NOMEM. */
uint32_t changecap_iter_old_record(changecap_iter *it, void *out, size_t room, size_t *len);
uint32_t changecap_iter_new_record(changecap_iter *it, void *out, size_t room, size_t *len);

/* Notes that the change met a conflict with this answer, CHANGECAP_OMIT or CHANGECAP_REPLACE, in an application
 * elsewhere. Once for each such change, in order. changecap_apply_iter notes its own, and changecap_sqlite_apply of
 * changecap_sqlite.h those of an application by SQLite.
 *   OK, MISUSE (there is no change, or no such answer), NOMEM. */
uint32_t changecap_iter_answer(changecap_iter *it, uint32_t answer);

/* The buffer of an application of the changeset, for changecap_rebase, as sqlite3changeset_apply_v2 has one: the
 * changes that met a conflict, each with its answer in the place of the indirect flag. It is no longer than the
 * changeset. It has the conflicts of the last changecap_apply_iter, if any, and of changecap_iter_answer since.
 *   OK (*len), ROOM (*len), PATCHSET, MISUSE (no such key_flags), NOMEM.
 * Unless the status is OK, out is as it was. */
uint32_t changecap_iter_buffer(changecap_iter *it, uint32_t key_flags, void *out, size_t room, size_t *len);

/* Closes the iterator and frees what it has. A closed one stays closed. */
void changecap_iter_close(changecap_iter *it);

/* ---- A blob in pieces ---- */

/* A decoder that gets a blob in pieces of any lengths, as it comes from a file or a socket. It keeps a copy of the
 * bytes, and reports a fault with the piece that shows it.
 *
 *     changecap_decoder decoder = CHANGECAP_CLOSED;
 *     changecap_iter it = CHANGECAP_CLOSED;
 *     if( changecap_decoder_open(&decoder) == CHANGECAP_OK ){
 *       while( (n = fread(piece, 1, sizeof piece, stdin)) > 0 )
 *         if( (status = changecap_decoder_feed(&decoder, piece, n, &fault)) != CHANGECAP_OK ) break;
 *       if( status == CHANGECAP_OK ) status = changecap_decoder_finish(&decoder, &it, &fault);
 *       else changecap_decoder_close(&decoder);
 *     }
 */
typedef struct changecap_decoder { void *at; } changecap_decoder;

/* Opens a closed decoder, without bytes.
 *   OK, NOMEM. */
uint32_t changecap_decoder_open(changecap_decoder *decoder);

/* Takes the next piece. A fault is set where no further bytes can mend it, which is any but TRUNCATED; its offset is
 * counted from the first byte of the first piece, and it is set again whatever follows. The rest takes an open decoder
 * too.
 *   OK, MALFORMED (*fault), NOMEM (the piece is not taken). */
uint32_t changecap_decoder_feed(changecap_decoder *decoder, const void *piece, size_t n, changecap_fault *fault);

/* Closes the decoder, whatever the status is, and opens a closed iterator before the first change of all the pieces.
 *   OK, MALFORMED (*fault), NOMEM (the pieces are lost). Unless the status is OK the iterator stays closed. */
uint32_t changecap_decoder_finish(changecap_decoder *decoder, changecap_iter *it, changecap_fault *fault);

/* Closes the decoder and frees what it has. A closed one stays closed. */
void changecap_decoder_close(changecap_decoder *decoder);

/* ---- Records ---- */

/* A row, a key and the new values of an update are each a record: fields one after the other, as a changeset has them
 * (docs/manual/formats.md). A row has a value for each column. A key has one for each column of the primary key, in the
 * order of the columns, none of them NULL. The new values of an update are a field for each column from the first on;
 * a column stays as it is where its field is undefined or left out.
 *
 *     uint8_t row[CHANGECAP_FIELD_MAX(0) + CHANGECAP_FIELD_MAX(1)];
 *     size_t len = changecap_put_int(row, 1);
 *     len += changecap_put_text(row + len, "x", 1); // (1,'x')
 *
 * Bytes that are no such record have a fault as those of a blob: TRUNCATED, BAD_VARINT, BAD_FIELD, REAL, BAD_TEXT or
 * BAD_RECORD, at its byte of the record. */

/* The room for a field of an INTEGER, NULL or none, where n is 0, or of a TEXT or a BLOB of n bytes. */
#define CHANGECAP_FIELD_MAX(n) ((size_t)(n) + 9)

/* Write a field, and answer how many bytes it has. A value has at most 1,000,000,000; the type is TEXT or BLOB. */
static inline size_t changecap_put_undefined(uint8_t *to){ *to = CHANGECAP_UNDEFINED; return 1; }
static inline size_t changecap_put_null(uint8_t *to){ *to = CHANGECAP_NULL; return 1; }
static inline size_t changecap_put_int(uint8_t *to, int64_t number){
  to[0] = CHANGECAP_INTEGER;
  for(int i = 0; i < 8; i++) to[1 + i] = (uint8_t)((uint64_t)number >> (56 - 8 * i));
  return 9;
}
static inline size_t changecap_put_bytes(uint8_t *to, uint32_t type, const void *bytes, size_t n){
  size_t len = 1;
  int shift = 28;
  to[0] = (uint8_t)type;
  while( shift > 0 && (uint64_t)n >> shift == 0 ) shift -= 7;
  for(; shift > 0; shift -= 7) to[len++] = (uint8_t)((uint64_t)n >> shift | 0x80);
  to[len++] = (uint8_t)(n & 0x7f);
  if( n ) memcpy(to + len, bytes, n);
  return len + n;
}
static inline size_t changecap_put_text(uint8_t *to, const void *text, size_t n){
  return changecap_put_bytes(to, CHANGECAP_TEXT, text, n);
}
static inline size_t changecap_put_blob(uint8_t *to, const void *blob, size_t n){
  return changecap_put_bytes(to, CHANGECAP_BLOB, blob, n);
}

/* Sets *value to a field, from 0 on, of a record that a call has written, and answers where the bytes of a TEXT or a
 * BLOB are; or NULL where the record has no such field, and *value is as it was. */
static inline const uint8_t *changecap_field(const uint8_t *record, size_t n, size_t column, changecap_value *value){
  for(const uint8_t *at = record, *end = record + n; at < end; column--){
    changecap_value found = { *at++, 0, 0 };
    if( found.type == CHANGECAP_INTEGER ){
      uint64_t number = 0;
      for(int i = 0; i < 8; i++) number = number << 8 | *at++;
      memcpy(&found.number, &number, sizeof number);
    }else if( found.type == CHANGECAP_TEXT || found.type == CHANGECAP_BLOB ){
      do found.len = found.len << 7 | (*at & 0x7f); while( *at++ & 0x80 );
    }
    if( column == 0 ){
      *value = found;
      return at;
    }
    at += found.len;
  }
  return NULL;
}

/* ---- Clients ---- */

/* A client of a history, which is a table server in memory that up to 64 clients share. What each call answers is the
 * answer of a server without threads at one point of one growing history, behind all that the client has seen
 * (docs/manual/threads.md).
 *
 *     changecap_client client = CHANGECAP_CLOSED;
 *     if( changecap_open(&client) == CHANGECAP_OK ){
 *       uint32_t status = changecap_call(&client, "create t kv", strlen("create t kv"), &fault);
 *       uint8_t reply[256];
 *       size_t len;
 *       if( status == CHANGECAP_OK && changecap_reply(&client, reply, sizeof reply, &len) == CHANGECAP_OK )
 *         fwrite(reply, 1, len, stdout);
 *       changecap_close(&client);
 *     }
 */
typedef struct changecap_client {
  void *at;
  void *shared; /* what the clients of a history have in common */
} changecap_client;

/* Opens a closed client, the first of a history that is empty.
 *   OK, NOMEM. */
uint32_t changecap_open(changecap_client *client);

/* Opens a closed client of the history of another one, and has then seen what that one has seen.
 *   OK, CLIENTS, NOMEM. */
uint32_t changecap_join(changecap_client *client, changecap_client *of);

/* Closes the client. Another one may have its seat then, and goes on where it ended. The history ends with its last
 * client; other handles stay as they are. A closed one stays closed. It waits as the calls below do, as does a join. */
void changecap_close(changecap_client *client);

/* Set *events to the number of events of the history that the client sees: all that there are, or those that it has
 * seen before. A command that was answered, be it refused, is an event; it was seen by the client that made the call.
 *   OK. */
uint32_t changecap_front(changecap_client *client, uint64_t *events);
uint32_t changecap_seen(changecap_client *client, uint64_t *events);

/* Sees what another client has seen.
 *   OK, MISUSE (the other is of another history). */
uint32_t changecap_meet(changecap_client *client, changecap_client *other);

/* ---- Commands ---- */

/* Each call from here on that takes a client, but changecap_reply, asks for the state of the history, waits while
 * another call has it, and may answer CHANGECAP_OVERTAKEN, with 0 in fault->kind and the number of events in fault->at.
 * All other calls touch the caller's handles alone, and wait for nothing.
 *
 * Where the status is REFUSED, fault->kind is the number of the refusal, as CHANGECAP_E_NO_TABLE, and fault->at is 0
 * unless said otherwise; changecap_call alone leaves the fault as it was. Unless the status is OK or REFUSED the
 * history is as it was. A name is 1 to 255 bytes of UTF-8 without a zero byte. */

/* Carries out the one command that the n bytes are, in the language of docs/manual/formats.md ("Workload text"), and
 * keeps the text of its reply until the client's next changecap_call that has one.
 *   OK, REFUSED (the reply says why, and *fault stays as it is), COMMAND (*fault), NOMEM, FULL.
 * A get or a scan of a table that is not there is OK, and its reply says that it is refused.
 * Of a fault, kind is 1 where a token does not fit, 2 where a limit is passed, 3 where the bytes to apply are no
 * blob, and 0 where the text is not UTF-8 or not just one command; at is the offset in the line, or in the bytes to
 * apply. */
uint32_t changecap_call(changecap_client *client, const void *text, size_t n, changecap_fault *fault);

/* Writes the text of the client's last reply, as docs/manual/formats.md has it, without a line feed at its end.
 *   OK (*len), ROOM (*len). */
uint32_t changecap_reply(changecap_client *client, void *out, size_t room, size_t *len);

/* Creates a table. Each of the bytes at key is a column, and is in the primary key unless the byte is 0. The columns
 * are 1 to 2,000.
 *   OK (*version is the new version), REFUSED, MISUSE (no such name, or number of columns), NOMEM, FULL. */
uint32_t changecap_create(changecap_client *client, const void *table, size_t n, const void *key, size_t columns,
                          uint64_t *version, changecap_fault *fault);

/* Saves the tables under a name, for changecap_session_diff, and replaces what was saved under it.
 *   OK, REFUSED, MISUSE (no such name), NOMEM, FULL. */
uint32_t changecap_save(changecap_client *client, const void *database, size_t n, changecap_fault *fault);

#define CHANGECAP_OMIT    0 /* the change is omitted */
#define CHANGECAP_REPLACE 1 /* it is applied all the same; where there is no row, the blob is refused */
#define CHANGECAP_ABORT   2 /* the blob is refused */

typedef struct changecap_report {
  uint64_t version;   /* the new version */
  uint64_t applied;   /* changes that were applied, those that replaced a row among them */
  uint64_t conflicts; /* changes that met a conflict: each that was not omitted replaced a row */
  uint64_t omitted;   /* changes that were omitted because of one */
  uint64_t skipped;   /* groups that were skipped: there is no such table */
} changecap_report;

/* Applies a changeset or a patchset, as sqlite3changeset_apply: data is the answer where a row has other values than
 * those before the change, notfound where there is no row, conflict where the key of an inserted row is in use. A
 * blob that is refused changes no table. It is read before the call asks for the state.
 *   OK (*report), REFUSED (*fault: E_ABORTED, E_MISUSE, fault->at is the number of the change, from 0),
 *   MALFORMED (*fault), MISUSE (no such answer), NOMEM, FULL. */
uint32_t changecap_apply(changecap_client *client, const void *blob, size_t n, uint32_t data, uint32_t notfound,
                         uint32_t conflict, changecap_report *report, changecap_fault *fault);

/* The same of what an iterator was opened on, wherever it stands. With OK it has the conflicts of this application
 * (changecap_iter_buffer), and else what it had.
 *   OK (*report), REFUSED (as above), MISUSE (no such answer), NOMEM, FULL. */
uint32_t changecap_apply_iter(changecap_client *client, changecap_iter *it, uint32_t data, uint32_t notfound,
                              uint32_t conflict, changecap_report *report, changecap_fault *fault);

/* The options of an application under a policy. All zero there are none. A pointer may be NULL where the number behind it
 * is 0. */
typedef struct changecap_options {
  const void *filter;    /* the text of a filter, as of changecap_session_filter: other tables are passed over */
  size_t filter_n;       /* its bytes; where they are 0 no table is passed over */
  const uint64_t *quiet; /* the numbers of sessions that record none of its changes: each other one records them */
  size_t quiet_n;        /* how many they are */
} changecap_options;

typedef struct changecap_passed {
  uint64_t groups;  /* groups that were passed over: the filter does not accept their tables */
  uint64_t changes; /* changes of these groups */
} changecap_passed;

/* The same two, as *options says. A group that is passed over is not looked at, and is none of those that are skipped.
 * An iterator goes over the other groups then, from before the first change on, and unless the status is OK it is as it
 * was. Who sends to another copy what a session captures, and applies what that copy sends, names the session here, so
 * that nothing is sent back:
 *
 *     changecap_options options = { .quiet = &session, .quiet_n = 1 };
 *     changecap_passed passed;
 *     status = changecap_apply_with(&client, blob, n, CHANGECAP_OMIT, CHANGECAP_OMIT, CHANGECAP_REPLACE, &options,
 *                                   &report, &passed, &fault);
 *
 *   OK (*report, *passed), and else as of the two: fault->at counts the changes that are passed over, too. Also
 *   FILTER (*fault), MISUSE (the filter is not UTF-8), REFUSED with E_NO_SESSION (a quiet session is not there). */
uint32_t changecap_apply_with(changecap_client *client, const void *blob, size_t n, uint32_t data, uint32_t notfound,
                              uint32_t conflict, const changecap_options *options, changecap_report *report,
                              changecap_passed *passed, changecap_fault *fault);
uint32_t changecap_apply_iter_with(changecap_client *client, changecap_iter *it, uint32_t data, uint32_t notfound,
                                   uint32_t conflict, const changecap_options *options, changecap_report *report,
                                   changecap_passed *passed, changecap_fault *fault);

/* Creates the tables of a blob, and applies it to them with CHANGECAP_ABORT as each answer: what changecap_dump wrote
 * of one history and is loaded into another gives the same tables. The blob is read, and the tables as they are are
 * looked at, before anything is made: where one of its tables is there already, or a change is no INSERT of a new row,
 * nothing is. It is a command for each table, and one for the rows: where memory runs out among them, or a command by
 * changecap_try_create comes between, the tables that were created stay.
 *   OK (*report), REFUSED (*fault; of an application fault->at is the number of the change, from 0),
 *   MALFORMED (*fault), NOMEM, FULL. */
uint32_t changecap_load(changecap_client *client, const void *blob, size_t n, changecap_report *report,
                        changecap_fault *fault);

/* ---- Sessions ---- */

/* Sessions have numbers, from 1 on, which every client may use. */

/* Makes a session, as sqlite3session_create.
 *   OK (*session), REFUSED, NOMEM, FULL. */
uint32_t changecap_session_new(changecap_client *client, uint64_t *session, changecap_fault *fault);

/* Ends a session, as sqlite3session_delete.
 *   OK, REFUSED, NOMEM, FULL. */
uint32_t changecap_session_drop(changecap_client *client, uint64_t session, changecap_fault *fault);

/* Attaches a table, as sqlite3session_attach. The table need not be there yet.
 *   OK, REFUSED, MISUSE (no such name), NOMEM, FULL. */
uint32_t changecap_session_attach(changecap_client *client, uint64_t session, const void *table, size_t n,
                                  changecap_fault *fault);

/* Attaches from now on each table of which a row changes, as sqlite3session_attach without a name.
 *   OK, REFUSED, NOMEM, FULL. */
uint32_t changecap_session_attach_all(changecap_client *client, uint64_t session, changecap_fault *fault);

/* Attaches from now on each table of which a row changes and whose name the filter accepts, as
 * sqlite3session_table_filter. The filter's text is that of docs/manual/formats.md ("Filter text"), as in
 * and(starts 'a',not is 'ab').
 *   OK, REFUSED, FILTER (*fault), MISUSE (the text is not UTF-8), NOMEM, FULL.
 * Of a text that is no filter fault->kind is CHANGECAP_E_BAD_FILTER, and fault->at is where the first token does not
 * fit; or CHANGECAP_E_TOO_DEEP where it has more than 32 levels or 1,000 filters, and 0. */
uint32_t changecap_session_filter(changecap_client *client, uint64_t session, const void *text, size_t n,
                                  changecap_fault *fault);

/* Records how a table differs from the one of the same name in a saved database, as sqlite3session_diff.
 *   OK, REFUSED, MISUSE (no such names), NOMEM, FULL. */
uint32_t changecap_session_diff(changecap_client *client, uint64_t session, const void *from, size_t n,
                                const void *table, size_t m, changecap_fault *fault);

#define CHANGECAP_OFF 0
#define CHANGECAP_ON  1
#define CHANGECAP_ASK 2 /* the flag stays as it is */

/* Enables or disables a session, and makes its touches indirect or direct, as sqlite3session_enable and
 * sqlite3session_indirect.
 *   OK (*flag is its value from now on), REFUSED, MISUSE (set is none of the three), NOMEM, FULL. */
uint32_t changecap_session_enable(changecap_client *client, uint64_t session, uint32_t set, uint32_t *flag,
                                  changecap_fault *fault);
uint32_t changecap_session_indirect(changecap_client *client, uint64_t session, uint32_t set, uint32_t *flag,
                                    changecap_fault *fault);

/* Asks whether a session has no records, as sqlite3session_isempty.
 *   OK (*flag is 0 or 1), REFUSED, NOMEM, FULL. */
uint32_t changecap_session_isempty(changecap_client *client, uint64_t session, uint32_t *flag, changecap_fault *fault);

/* ---- Captures ---- */

/* What a session had captured at one event of the history. It stays as it is, whatever is committed, and becomes bytes
 * without the state. */
typedef struct changecap_capture { void *at; } changecap_capture;

/* Open a closed capture of what a session has captured. The second then deletes the session's records; its flags and
 * tables stay.
 *   OK, REFUSED, NOMEM, FULL. Unless the status is OK the capture stays closed. */
uint32_t changecap_session_capture(changecap_client *client, uint64_t session, changecap_capture *capture,
                                   changecap_fault *fault);
uint32_t changecap_session_restart(changecap_client *client, uint64_t session, changecap_capture *capture,
                                   changecap_fault *fault);

/* Sets *version to that of the tables at the moment of the capture: what is committed later has a greater one.
 *   OK. */
uint32_t changecap_capture_version(changecap_capture *capture, uint64_t *version);

/* Write a capture, as sqlite3session_changeset and sqlite3session_patchset.
 *   OK (*len), ROOM (*len), MISUSE (no such key_flags), NOMEM.
 * Unless the status is OK, out is as it was. */
uint32_t changecap_capture_changeset(changecap_capture *capture, uint32_t key_flags, void *out, size_t room,
                                     size_t *len);
uint32_t changecap_capture_patchset(changecap_capture *capture, uint32_t key_flags, void *out, size_t room,
                                    size_t *len);

/* Closes the capture and frees what it has. A closed one stays closed. */
void changecap_capture_close(changecap_capture *capture);

/* ---- Batches ---- */

/* Operations that are made together or not at all. A batch is put together without the state, and any client commits
 * it.
 *
 *     changecap_batch batch = CHANGECAP_CLOSED;
 *     uint8_t key[CHANGECAP_FIELD_MAX(0)], row[64];
 *     uint64_t version;
 *     changecap_batch_open(&batch);
 *     size_t len = changecap_put_int(row, 1);
 *     len += changecap_put_text(row + len, "x", 1);
 *     changecap_insert(&batch, "t", 1, row, len, CHANGECAP_DIRECT, &fault);           // insert t (1,'x')
 *     size_t m = changecap_put_int(key, 2);
 *     len = changecap_put_undefined(row);
 *     len += changecap_put_null(row + len);
 *     changecap_update(&batch, "t", 1, key, m, 0, row, len, CHANGECAP_DIRECT, &fault); // update t key(2) set 1 = null
 *     if( changecap_commit(&client, &batch, &version, &fault) == CHANGECAP_REFUSED )
 *       fprintf(stderr, "E%u at operation %zu\n", fault.kind, fault.at);
 *     changecap_batch_close(&batch);
 */
typedef struct changecap_batch { void *at; } changecap_batch;

/* Open a closed batch, without operations. The second takes the version on which alone the batch may be committed: on
 * any other it is refused with CHANGECAP_E_STALE.
 *   OK, NOMEM. */
uint32_t changecap_batch_open(changecap_batch *batch);
uint32_t changecap_batch_open_at(changecap_batch *batch, uint64_t version);

/* Takes all operations out of the batch, which may be committed on any version then. */
void changecap_batch_clear(changecap_batch *batch);

/* Closes the batch and frees what it has. A closed one stays closed. */
void changecap_batch_close(changecap_batch *batch);

#define CHANGECAP_DIRECT  0 /* the operation itself: a session marks its touch by the session's flag */
#define CHANGECAP_CASCADE 1 /* what a trigger or a foreign key action did: its touch is indirect */

/* Put an operation last in the batch. An insert takes a row of len bytes. An update and a delete take a key of m bytes;
 * or a row that has no key by its id, where that is not 0, and then m is 0. Whether there is such a table, row or
 * column is looked at when the batch is committed.
 *   OK, REFUSED (*fault: E_TOO_MANY, the batch has 10,000 operations), MALFORMED (*fault, of the key or else of the
 *   rest), NOMEM, MISUSE (no such name or cause; the id is 0 and m as well; neither is 0). */
uint32_t changecap_insert(changecap_batch *batch, const void *table, size_t n, const void *row, size_t len,
                          uint32_t cause, changecap_fault *fault);
uint32_t changecap_update(changecap_batch *batch, const void *table, size_t n, const void *key, size_t m, uint64_t id,
                          const void *fields, size_t len, uint32_t cause, changecap_fault *fault);
uint32_t changecap_delete(changecap_batch *batch, const void *table, size_t n, const void *key, size_t m, uint64_t id,
                          uint32_t cause, changecap_fault *fault);

/* Commits the batch: all of its operations, or none. Then it is as changecap_batch_open leaves it.
 *   OK (*version is the new version), REFUSED, NOMEM, FULL.
 * Where it is refused, fault->at is the number of the operation, from 0; of a transaction's batch that is refused with
 * CHANGECAP_E_STALE it is the number of the first item that has changed. Unless the status is OK the batch is as it
 * was. */
uint32_t changecap_commit(changecap_client *client, changecap_batch *batch, uint64_t *version, changecap_fault *fault);

/* Commits the batch, and opens a closed capture of the session, as changecap_commit and changecap_session_restart do
 * one after the other; no client's waiting call comes between them. Where each commit under a session is made so, each
 * capture has the changes of its commit alone.
 *   OK (*version, and the capture is open), and else what the one that failed answers. Then *version is that of the
 *   commit where it was made and only the capture failed: the session keeps its records. It is 0 where nothing was
 *   committed, as for a session that is not there. */
uint32_t changecap_commit_captured(changecap_client *client, changecap_batch *batch, uint64_t session,
                                   uint64_t *version, changecap_capture *capture, changecap_fault *fault);

/* An item that a transaction looked at, for its batch. The rest of an item is its table and its key. */
typedef struct changecap_item {
  uint32_t kind;
  uint64_t id; /* of a ROW without a key, else 0 */
} changecap_item;

#define CHANGECAP_ITEM_TABLE   0 /* whether there is such a table, and its columns */
#define CHANGECAP_ITEM_ROW     1 /* a row, or that there is none */
#define CHANGECAP_ITEM_SCAN    2 /* all rows of a table */
#define CHANGECAP_ITEM_NEXT_ID 3 /* the id that the table's next row without a key gets */

/* Sets *item to an item of a transaction's batch, from 0 on, as fault->at of a refused commit.
 *   OK, MISUSE (there is no such item). */
uint32_t changecap_batch_item(changecap_batch *batch, size_t at, changecap_item *item);

/* Write the name of the item's table, and the record of its key: of a ROW with a key; no bytes of any other.
 *   OK (*len), ROOM (*len), NOMEM, MISUSE. */
uint32_t changecap_batch_item_table(changecap_batch *batch, size_t at, void *out, size_t room, size_t *len);
uint32_t changecap_batch_item_key(changecap_batch *batch, size_t at, void *out, size_t room, size_t *len);

/* ---- Snapshots ---- */

/* The tables as they were at one event of the history. A snapshot stays as it is, whatever is committed, and is read
 * without the state. */
typedef struct changecap_snapshot { void *at; } changecap_snapshot;

/* Opens a closed snapshot, of the tables as they are now.
 *   OK, NOMEM, FULL. Unless the status is OK the snapshot stays closed. */
uint32_t changecap_snapshot_open(changecap_client *client, changecap_snapshot *snapshot);

/* Sets *version to that of the tables.
 *   OK. */
uint32_t changecap_snapshot_version(changecap_snapshot *snapshot, uint64_t *version);

/* Writes a table as a changeset, with an INSERT for each row that has a key, in the order of the keys: a table without
 * rows as a group without changes. What is written of several tables, one behind the other, is one changeset. A row
 * without a key has no place in a changeset, and is left out; of a table without key columns there are no bytes.
 *   OK (*len), ROOM (*len), MISUSE (no such key_flags, no table of the name), NOMEM.
 * Unless the status is OK, out is as it was. */
uint32_t changecap_dump(changecap_snapshot *snapshot, const void *table, size_t n, uint32_t key_flags, void *out,
                        size_t room, size_t *len);

/* Closes the snapshot and frees what it alone has. A closed one stays closed. */
void changecap_snapshot_close(changecap_snapshot *snapshot);

/* ---- Rows ---- */

/* Rows that were read, in the manner of sqlite3_step and sqlite3_column_int64 and its like. They stay, whatever becomes
 * of what they were read from.
 *
 *     changecap_rows rows = CHANGECAP_CLOSED;
 *     if( changecap_scan(&snapshot, "t", 1, &rows, &fault) == CHANGECAP_OK ){
 *       while( changecap_step(&rows) == CHANGECAP_ROW ){
 *         changecap_column(&rows, 0, &value);
 *         if( value.type == CHANGECAP_INTEGER ) printf("%lld\n", (long long)value.number);
 *       }
 *       changecap_rows_close(&rows);
 *     }
 */
typedef struct changecap_rows { void *at; } changecap_rows;

/* Open closed rows before the first of them. changecap_get reads a row by its key, or one that has no key by its id,
 * where that is not 0, and then m is 0: one row or none. changecap_scan reads all rows, those with a key in the order
 * of their keys, and then the others by their ids; changecap_scan_from those with a key that is not below the given
 * one, at most limit of them.
 *   OK, REFUSED (*fault: E_NO_TABLE), MALFORMED (*fault), NOMEM,
 *   MISUSE (no such name; the id is 0 and m as well; neither is 0).
 * Unless the status is OK the rows stay closed. */
uint32_t changecap_get(changecap_snapshot *snapshot, const void *table, size_t n, const void *key, size_t m,
                       uint64_t id, changecap_rows *rows, changecap_fault *fault);
uint32_t changecap_scan(changecap_snapshot *snapshot, const void *table, size_t n, changecap_rows *rows,
                        changecap_fault *fault);
uint32_t changecap_scan_from(changecap_snapshot *snapshot, const void *table, size_t n, const void *key, size_t m,
                             uint64_t limit, changecap_rows *rows, changecap_fault *fault);

/* Goes to the next of the rows.
 *   ROW, or DONE behind the last row, and from then on. */
uint32_t changecap_step(changecap_rows *rows);

/* Set *id to that of the row, or to 0 where it has a key, and *columns to how many the row has.
 *   OK, MISUSE (there is no row: before the first, behind the last). */
uint32_t changecap_row_id(changecap_rows *rows, uint64_t *id);
uint32_t changecap_columns(changecap_rows *rows, size_t *columns);

/* Set *value to that of a column, from 0 on, and write the bytes of a TEXT or a BLOB; any other value has none.
 *   OK (*len), ROOM (*len), MISUSE (there is no row, or no such column). */
uint32_t changecap_column(changecap_rows *rows, size_t column, changecap_value *value);
uint32_t changecap_column_bytes(changecap_rows *rows, size_t column, void *out, size_t room, size_t *len);

/* Writes the row as its record.
 *   OK (*len), ROOM (*len), NOMEM, MISUSE (there is no row). */
uint32_t changecap_row(changecap_rows *rows, void *out, size_t room, size_t *len);

/* Closes the rows and frees what they have. Closed ones stay closed. */
void changecap_rows_close(changecap_rows *rows);

/* ---- Transactions ---- */

/* A transaction reads a snapshot as its own operations have left it. Its batch is accepted exactly if all that it
 * looked at is then as it was in the snapshot, and else refused with CHANGECAP_E_STALE: begin again on a new snapshot.
 *
 *     do{
 *       changecap_snapshot_open(&client, &snapshot);
 *       changecap_begin(&snapshot, &transaction);
 *       changecap_snapshot_close(&snapshot);
 *       changecap_transaction_get(&transaction, "t", 1, key, m, 0, &rows, &fault);
 *       ...
 *       changecap_transaction_update(&transaction, "t", 1, key, m, 0, fields, len, CHANGECAP_DIRECT, &fault);
 *       changecap_end(&transaction, &batch);
 *       status = changecap_commit(&client, &batch, &version, &fault);
 *       changecap_batch_close(&batch);
 *     }while( status == CHANGECAP_REFUSED && fault.kind == CHANGECAP_E_STALE );
 */
typedef struct changecap_transaction { void *at; } changecap_transaction;

/* Opens a closed transaction on a snapshot, which may be closed from then on.
 *   OK, NOMEM. */
uint32_t changecap_begin(changecap_snapshot *snapshot, changecap_transaction *transaction);

/* Closes the transaction, of which nothing is left. A closed one stays closed. */
void changecap_rollback(changecap_transaction *transaction);

/* Make an operation. The arguments are those of changecap_insert, _update and _delete.
 *   OK, REFUSED (*fault: E_TOO_MANY, there are 10,000 operations; or what a commit would be refused for),
 *   MALFORMED (*fault), MISUSE, NOMEM.
 * Unless the status is OK the rows that the transaction reads are as they were. */
uint32_t changecap_transaction_insert(changecap_transaction *transaction, const void *table, size_t n,
                                      const void *row, size_t len, uint32_t cause, changecap_fault *fault);
uint32_t changecap_transaction_update(changecap_transaction *transaction, const void *table, size_t n,
                                      const void *key, size_t m, uint64_t id, const void *fields, size_t len,
                                      uint32_t cause, changecap_fault *fault);
uint32_t changecap_transaction_delete(changecap_transaction *transaction, const void *table, size_t n,
                                      const void *key, size_t m, uint64_t id, uint32_t cause,
                                      changecap_fault *fault);

/* Open closed rows, as changecap_get and changecap_scan, of what the transaction reads. With NOMEM the transaction may
 * have looked at them all the same: its commit then compares them. */
uint32_t changecap_transaction_get(changecap_transaction *transaction, const void *table, size_t n, const void *key,
                                   size_t m, uint64_t id, changecap_rows *rows, changecap_fault *fault);
uint32_t changecap_transaction_scan(changecap_transaction *transaction, const void *table, size_t n,
                                    changecap_rows *rows, changecap_fault *fault);

/* Makes a savepoint, and goes back to one: all operations since are undone, later savepoints too, and the savepoint
 * itself stays.
 *   OK (*mark), REFUSED (*fault: E_TOO_MANY, it has made 10,000 savepoints; E_NO_MARK), NOMEM. */
uint32_t changecap_savepoint(changecap_transaction *transaction, uint64_t *mark, changecap_fault *fault);
uint32_t changecap_rollback_to(changecap_transaction *transaction, uint64_t mark, changecap_fault *fault);

/* Closes the transaction, and opens a closed batch with its operations, for changecap_commit.
 *   OK, NOMEM (both are as they were). */
uint32_t changecap_end(changecap_transaction *transaction, changecap_batch *batch);

/* ---- Applications ---- */

/* An application of a changeset or a patchset on a snapshot that stops at each conflict, where the caller sees the
 * change and the present row, and answers. What it leaves is committed as what it looked at: accepted exactly if each
 * row that a change names is then as it was in the snapshot, and else refused with CHANGECAP_E_STALE: begin again.
 *
 *     do{
 *       changecap_snapshot_open(&client, &snapshot);
 *       changecap_apply_open(&snapshot, blob, n, NULL, 0, &application, &fault);
 *       changecap_snapshot_close(&snapshot);
 *       while( changecap_apply_step(&application) == CHANGECAP_ROW ){
 *         changecap_apply_present(&application, row, sizeof row, &len);
 *         changecap_apply_answer(&application, row[len - 1] < 'm' ? CHANGECAP_REPLACE : CHANGECAP_OMIT, &fault);
 *       }
 *       status = changecap_apply_finish(&client, &application, &report, &fault);
 *       changecap_apply_close(&application);
 *     }while( status == CHANGECAP_REFUSED && fault.kind == CHANGECAP_E_STALE );
 */
typedef struct changecap_application { void *at; } changecap_application;

/* Opens a closed application on a snapshot, which may be closed from then on, and makes the changes before the first
 * conflict. Only the tables are looked at that a filter accepts, whose text is that of changecap_session_filter, or all
 * where m is 0.
 *   OK, MALFORMED (*fault), FILTER (*fault), MISUSE (the filter is not UTF-8), NOMEM.
 * Unless the status is OK the application stays closed. */
uint32_t changecap_apply_open(changecap_snapshot *snapshot, const void *blob, size_t n, const void *filter, size_t m,
                              changecap_application *application, changecap_fault *fault);

/* Asks whether the application stands at a conflict, the same one until it is answered. It is over where an answer was
 * refused, or a call that goes on had no memory: then the rest answers MISUSE, and it is begun again.
 *   ROW, DONE (it is at the end), MISUSE (it is over). */
uint32_t changecap_apply_step(changecap_application *application);

#define CHANGECAP_DATA     1 /* the row has other values than those before the change */
#define CHANGECAP_NOTFOUND 2 /* there is no row to update or delete */
#define CHANGECAP_CONFLICT 3 /* the key of an inserted row is in use */

/* Set *kind to what the change meets, *number to the number of the change, from 0 over the whole blob, and *change to
 * what it is; its columns are those of the blob's table.
 *   OK, MISUSE (it stands at no conflict). */
uint32_t changecap_apply_kind(changecap_application *application, uint32_t *kind);
uint32_t changecap_apply_number(changecap_application *application, uint64_t *number);
uint32_t changecap_apply_op(changecap_application *application, changecap_change *change);

/* Writes the name of the change's table.
 *   OK (*len), ROOM (*len), MISUSE. */
uint32_t changecap_apply_table(changecap_application *application, void *out, size_t room, size_t *len);

/* Write the record of the row before the change, after it, and of the row that is there, which the earlier changes of
 * the blob have left. The first two have a field for each column, undefined where there is no value; the last has every
 * column of the table.
 *   OK (*len), ROOM (*len), MISUSE (it stands at no conflict; there is no row), NOMEM. */
uint32_t changecap_apply_old(changecap_application *application, void *out, size_t room, size_t *len);
uint32_t changecap_apply_new(changecap_application *application, void *out, size_t room, size_t *len);
uint32_t changecap_apply_present(changecap_application *application, void *out, size_t room, size_t *len);

/* Answers the conflict with CHANGECAP_OMIT, CHANGECAP_REPLACE or CHANGECAP_ABORT, as changecap_apply does, and goes on
 * to the next one or to the end. After REFUSED and NOMEM it is over.
 *   OK, REFUSED (*fault: E_ABORTED, the answer is CHANGECAP_ABORT; E_MISUSE, CHANGECAP_REPLACE where there is no row;
 *   fault->at is the number of the change), MISUSE (no such answer; it stands at no conflict), NOMEM. */
uint32_t changecap_apply_answer(changecap_application *application, uint32_t answer, changecap_fault *fault);

/* Answers the conflict with a row of the caller's own, a record: it stands there in place of the change, which counts
 * as omitted, and the application goes on.
 *   OK, REFUSED (*fault: E_WRONG_WIDTH, it has not the table's columns), MALFORMED (*fault), NOMEM,
 *   MISUSE (it has another key than the change; the application stands at no conflict).
 * Unless the status is OK it stands where it stood, but that with NOMEM it may be over. */
uint32_t changecap_apply_answer_row(changecap_application *application, const void *row, size_t n,
                                    changecap_fault *fault);

/* Commits what the application left, once it is at the end: one event and one version. It may be made again.
 *   OK (*report), REFUSED (*fault: E_STALE, fault->at is the number of the first item that has changed since the
 *   snapshot, in the batch of changecap_apply_end), MISUSE (it stands at a conflict, or is over), NOMEM, FULL. */
uint32_t changecap_apply_finish(changecap_client *client, changecap_application *application, changecap_report *report,
                                changecap_fault *fault);

/* Opens a closed batch for changecap_commit that makes what the application left: an operation for each row that is not
 * as it was. What it looked at is the table and the row of each change.
 *   OK, MISUSE, NOMEM.
 * Unless the status is OK the batch stays closed. */
uint32_t changecap_apply_end(changecap_application *application, changecap_batch *batch, changecap_fault *fault);

/* Sets *report to what became of the changes so far, with the version of the snapshot.
 *   OK, MISUSE (it is over). */
uint32_t changecap_apply_report(changecap_application *application, changecap_report *report);

/* The buffer of the application so far, as of changecap_iter_buffer. A change in whose place a row stands was omitted.
 *   OK (*len), ROOM (*len), MISUSE (no such key_flags; the blob is a patchset; it is over), NOMEM. */
uint32_t changecap_apply_buffer(changecap_application *application, uint32_t key_flags, void *out, size_t room,
                                size_t *len);

/* Closes the application, of which nothing is left but what was committed. A closed one stays closed. */
void changecap_apply_close(changecap_application *application);

/* ---- Calls that do not wait ---- */

/* Each is the call of its name without try_, but answers CHANGECAP_BUSY where another call has the state, and has
 * changed nothing then. They take no NULL. changecap_try_apply is changecap_apply_iter, changecap_try_apply_with is
 * changecap_apply_iter_with of what the options have, each by itself, and changecap_try_load is
 * changecap_load of what an iterator was opened on; where it answers CHANGECAP_BUSY after its first command, the tables
 * that it created stay. */
uint32_t changecap_try_call(changecap_client *client, const void *text, size_t n, changecap_fault *fault);
uint32_t changecap_try_create(changecap_client *client, const void *table, size_t n, const void *key, size_t columns,
                              uint64_t *version, changecap_fault *fault);
uint32_t changecap_try_save(changecap_client *client, const void *database, size_t n, changecap_fault *fault);
uint32_t changecap_try_apply(changecap_client *client, changecap_iter *it, uint32_t data, uint32_t notfound,
                             uint32_t conflict, changecap_report *report, changecap_fault *fault);
uint32_t changecap_try_apply_with(changecap_client *client, changecap_iter *it, uint32_t data, uint32_t notfound,
                                  uint32_t conflict, const void *filter, size_t filter_n, const uint64_t *quiet,
                                  size_t quiet_n, changecap_report *report, changecap_passed *passed,
                                  changecap_fault *fault);
uint32_t changecap_try_load(changecap_client *client, changecap_iter *it, changecap_report *report,
                            changecap_fault *fault);
uint32_t changecap_try_session_new(changecap_client *client, uint64_t *session, changecap_fault *fault);
uint32_t changecap_try_session_drop(changecap_client *client, uint64_t session, changecap_fault *fault);
uint32_t changecap_try_session_attach(changecap_client *client, uint64_t session, const void *table, size_t n,
                                      changecap_fault *fault);
uint32_t changecap_try_session_attach_all(changecap_client *client, uint64_t session, changecap_fault *fault);
uint32_t changecap_try_session_filter(changecap_client *client, uint64_t session, const void *text, size_t n,
                                      changecap_fault *fault);
uint32_t changecap_try_session_diff(changecap_client *client, uint64_t session, const void *from, size_t n,
                                    const void *table, size_t m, changecap_fault *fault);
uint32_t changecap_try_session_enable(changecap_client *client, uint64_t session, uint32_t set, uint32_t *flag,
                                      changecap_fault *fault);
uint32_t changecap_try_session_indirect(changecap_client *client, uint64_t session, uint32_t set, uint32_t *flag,
                                        changecap_fault *fault);
uint32_t changecap_try_session_isempty(changecap_client *client, uint64_t session, uint32_t *flag,
                                       changecap_fault *fault);
uint32_t changecap_try_session_capture(changecap_client *client, uint64_t session, changecap_capture *capture,
                                       changecap_fault *fault);
uint32_t changecap_try_session_restart(changecap_client *client, uint64_t session, changecap_capture *capture,
                                       changecap_fault *fault);
uint32_t changecap_try_commit(changecap_client *client, changecap_batch *batch, uint64_t *version,
                              changecap_fault *fault);
uint32_t changecap_try_snapshot_open(changecap_client *client, changecap_snapshot *snapshot);

/* ---- NULL ---- */

/* The calls that are not made under a lock take no NULL, and close no closed handle. These stand before them: a macro
 * of the same name gives a call bytes, or room, for NULL, or makes it only where the handle is open. Who takes the
 * address of such a call, or calls the library without this header, sees to it as they do. */
#define CHANGECAP_END(handle, call) \
  static inline void changecap_end_##handle(changecap_##handle *it){ if( it->at ) call(it); }
CHANGECAP_END(iter, changecap_iter_close)
CHANGECAP_END(decoder, changecap_decoder_close)
CHANGECAP_END(capture, changecap_capture_close)
CHANGECAP_END(batch, changecap_batch_close)
CHANGECAP_END(snapshot, changecap_snapshot_close)
CHANGECAP_END(rows, changecap_rows_close)
CHANGECAP_END(transaction, changecap_rollback)
CHANGECAP_END(application, changecap_apply_close)
#undef CHANGECAP_END

#define changecap_iter_close changecap_end_iter
#define changecap_decoder_close changecap_end_decoder
#define changecap_capture_close changecap_end_capture
#define changecap_batch_close changecap_end_batch
#define changecap_snapshot_close changecap_end_snapshot
#define changecap_rows_close changecap_end_rows
#define changecap_rollback changecap_end_transaction
#define changecap_apply_close changecap_end_application

#define changecap_check(blob, n, fault) changecap_check(changecap_bytes(blob), n, fault)
#define changecap_invert(blob, n, key_flags, out, room, len, fault) \
  changecap_invert(changecap_bytes(blob), n, key_flags, changecap_room(out), room, len, fault)
#define changecap_patchset(blob, n, key_flags, out, room, len, fault) \
  changecap_patchset(changecap_bytes(blob), n, key_flags, changecap_room(out), room, len, fault)
#define changecap_concat(first, n, second, m, key_flags, out, room, len, fault, blob) \
  changecap_concat(changecap_bytes(first), n, changecap_bytes(second), m, key_flags, changecap_room(out), room, len, \
                   fault, blob)
#define changecap_rebase(changeset, n, buffers, m, key_flags, out, room, len, fault, blob) \
  changecap_rebase(changecap_bytes(changeset), n, changecap_bytes(buffers), m, key_flags, changecap_room(out), room, \
                   len, fault, blob)
#define changecap_json(blob, n, out, room, len, fault) \
  changecap_json(changecap_bytes(blob), n, changecap_room(out), room, len, fault)
#define changecap_iter_open(blob, n, it, fault) changecap_iter_open(changecap_bytes(blob), n, it, fault)
#define changecap_iter_table(it, out, room, len) changecap_iter_table(it, changecap_room(out), room, len)
#define changecap_iter_old_bytes(it, column, out, room, len) \
  changecap_iter_old_bytes(it, column, changecap_room(out), room, len)
#define changecap_iter_new_bytes(it, column, out, room, len) \
  changecap_iter_new_bytes(it, column, changecap_room(out), room, len)
#define changecap_iter_old_record(it, out, room, len) changecap_iter_old_record(it, changecap_room(out), room, len)
#define changecap_iter_new_record(it, out, room, len) changecap_iter_new_record(it, changecap_room(out), room, len)
#define changecap_iter_buffer(it, key_flags, out, room, len) \
  changecap_iter_buffer(it, key_flags, changecap_room(out), room, len)
#define changecap_decoder_feed(decoder, piece, n, fault) \
  changecap_decoder_feed(decoder, changecap_bytes(piece), n, fault)
#define changecap_reply(client, out, room, len) changecap_reply(client, changecap_room(out), room, len)
#define changecap_capture_changeset(capture, key_flags, out, room, len) \
  changecap_capture_changeset(capture, key_flags, changecap_room(out), room, len)
#define changecap_capture_patchset(capture, key_flags, out, room, len) \
  changecap_capture_patchset(capture, key_flags, changecap_room(out), room, len)
#define changecap_dump(snapshot, table, n, key_flags, out, room, len) \
  changecap_dump(snapshot, changecap_bytes(table), n, key_flags, changecap_room(out), room, len)
#define changecap_insert(batch, table, n, row, len, cause, fault) \
  changecap_insert(batch, changecap_bytes(table), n, changecap_bytes(row), len, cause, fault)
#define changecap_update(batch, table, n, key, m, id, fields, len, cause, fault) \
  changecap_update(batch, changecap_bytes(table), n, changecap_bytes(key), m, id, changecap_bytes(fields), len, \
                   cause, fault)
#define changecap_delete(batch, table, n, key, m, id, cause, fault) \
  changecap_delete(batch, changecap_bytes(table), n, changecap_bytes(key), m, id, cause, fault)
#define changecap_batch_item_table(batch, at, out, room, len) \
  changecap_batch_item_table(batch, at, changecap_room(out), room, len)
#define changecap_batch_item_key(batch, at, out, room, len) \
  changecap_batch_item_key(batch, at, changecap_room(out), room, len)
#define changecap_get(snapshot, table, n, key, m, id, rows, fault) \
  changecap_get(snapshot, changecap_bytes(table), n, changecap_bytes(key), m, id, rows, fault)
#define changecap_scan(snapshot, table, n, rows, fault) \
  changecap_scan(snapshot, changecap_bytes(table), n, rows, fault)
#define changecap_scan_from(snapshot, table, n, key, m, limit, rows, fault) \
  changecap_scan_from(snapshot, changecap_bytes(table), n, changecap_bytes(key), m, limit, rows, fault)
#define changecap_column_bytes(rows, column, out, room, len) \
  changecap_column_bytes(rows, column, changecap_room(out), room, len)
#define changecap_row(rows, out, room, len) changecap_row(rows, changecap_room(out), room, len)
#define changecap_transaction_insert(transaction, table, n, row, len, cause, fault) \
  changecap_transaction_insert(transaction, changecap_bytes(table), n, changecap_bytes(row), len, cause, fault)
#define changecap_transaction_update(transaction, table, n, key, m, id, fields, len, cause, fault) \
  changecap_transaction_update(transaction, changecap_bytes(table), n, changecap_bytes(key), m, id, \
                               changecap_bytes(fields), len, cause, fault)
#define changecap_transaction_delete(transaction, table, n, key, m, id, cause, fault) \
  changecap_transaction_delete(transaction, changecap_bytes(table), n, changecap_bytes(key), m, id, cause, fault)
#define changecap_transaction_get(transaction, table, n, key, m, id, rows, fault) \
  changecap_transaction_get(transaction, changecap_bytes(table), n, changecap_bytes(key), m, id, rows, fault)
#define changecap_transaction_scan(transaction, table, n, rows, fault) \
  changecap_transaction_scan(transaction, changecap_bytes(table), n, rows, fault)
#define changecap_apply_open(snapshot, blob, n, filter, m, application, fault) \
  changecap_apply_open(snapshot, changecap_bytes(blob), n, changecap_bytes(filter), m, application, fault)
#define changecap_apply_table(application, out, room, len) \
  changecap_apply_table(application, changecap_room(out), room, len)
#define changecap_apply_old(application, out, room, len) \
  changecap_apply_old(application, changecap_room(out), room, len)
#define changecap_apply_new(application, out, room, len) \
  changecap_apply_new(application, changecap_room(out), room, len)
#define changecap_apply_present(application, out, room, len) \
  changecap_apply_present(application, changecap_room(out), room, len)
#define changecap_apply_answer_row(application, row, n, fault) \
  changecap_apply_answer_row(application, changecap_bytes(row), n, fault)
#define changecap_apply_buffer(application, key_flags, out, room, len) \
  changecap_apply_buffer(application, key_flags, changecap_room(out), room, len)

#ifdef __cplusplus
}
#endif

#endif
