/*
 * changecap_sqlite.h - databases of SQLite that synchronise with a history of changecap.
 *
 * A function over the calls of changecap.h and of SQLite's session extension, which is in the program that includes it:
 * compile with -DSQLITE_ENABLE_SESSION -DSQLITE_ENABLE_PREUPDATE_HOOK, and link libsqlite3. It is tested, and no part
 * of what is proved.
 */
#ifndef CHANGECAP_SQLITE_H
#define CHANGECAP_SQLITE_H

#include <changecap.h>
#include <sqlite3.h>

#ifdef __cplusplus
extern "C" {
#endif

/* What decides a conflict, as the last argument but one of sqlite3changeset_apply. */
typedef int (*changecap_sqlite_conflict)(void *context, int kind, sqlite3_changeset_iter *change);

/* What the handler below is given. */
typedef struct changecap_sqlite_noted {
  changecap_iter *it;
  changecap_sqlite_conflict conflict;
  void *context;
} changecap_sqlite_noted;

/* Whether a value is that of a column of the iterator's change: after it, or before it. */
static inline int changecap_sqlite_is_value(changecap_iter *it, size_t column, int is_new, sqlite3_value *wanted){
  changecap_value found;
  size_t n;
  if( (is_new ? changecap_iter_new : changecap_iter_old)(it, column, &found) != CHANGECAP_OK ) return 0;
  if( sqlite3_value_type(wanted) != (int)found.type ) return 0;
  if( found.type == CHANGECAP_INTEGER ) return sqlite3_value_int64(wanted) == found.number;
  if( found.type == CHANGECAP_NULL ) return 1;
  const void *bytes = sqlite3_value_blob(wanted);
  if( (size_t)sqlite3_value_bytes(wanted) != found.len ) return 0;
  void *copy = sqlite3_malloc64(found.len + 1);
  uint32_t status = CHANGECAP_NOMEM;
  if( copy ) status = is_new ? changecap_iter_new_bytes(it, column, copy, found.len, &n)
                             : changecap_iter_old_bytes(it, column, copy, found.len, &n);
  int is_same = status == CHANGECAP_OK && (found.len == 0 || memcmp(copy, bytes, found.len) == 0);
  sqlite3_free(copy);
  return is_same;
}

/* Whether the iterator is at a change: of the same table, of a row with the same key. */
static inline int changecap_sqlite_is_at(changecap_iter *it, sqlite3_changeset_iter *change){
  const char *table;
  char name[255];
  int columns, op, is_new;
  size_t n = 0;
  if( sqlite3changeset_op(change, &table, &columns, &op, NULL) != SQLITE_OK ) return 0;
  changecap_iter_table(it, name, sizeof name, &n);
  if( strlen(table) != n || memcmp(table, name, n) != 0 ) return 0;
  is_new = op == SQLITE_INSERT;
  for(int column = 0; column < columns; column++){
    uint32_t is_key = 0;
    sqlite3_value *value = NULL;
    changecap_iter_key(it, (size_t)column, &is_key);
    if( !is_key ) continue;
    if( is_new ) sqlite3changeset_new(change, column, &value);
    else sqlite3changeset_old(change, column, &value);
    if( value == NULL || !changecap_sqlite_is_value(it, (size_t)column, is_new, value) ) return 0;
  }
  return 1;
}

/* Answers a conflict as its handler does, and notes that. SQLite goes over the changes in their order, but for those
 * that a constraint refuses, which it tries again later. */
static inline int changecap_sqlite_note(void *context, int kind, sqlite3_changeset_iter *change){
  changecap_sqlite_noted *of = (changecap_sqlite_noted *)context;
  if( kind == SQLITE_CHANGESET_CONSTRAINT || kind == SQLITE_CHANGESET_FOREIGN_KEY ) return SQLITE_CHANGESET_ABORT;
  int answer = of->conflict(of->context, kind, change);
  if( answer == SQLITE_CHANGESET_ABORT ) return answer;
  do{
    if( changecap_iter_next(of->it) != CHANGECAP_ROW ) return SQLITE_CHANGESET_ABORT;
  }while( !changecap_sqlite_is_at(of->it, change) );
  uint32_t noted = answer == SQLITE_CHANGESET_REPLACE ? CHANGECAP_REPLACE : CHANGECAP_OMIT;
  return changecap_iter_answer(of->it, noted) == CHANGECAP_OK ? answer : SQLITE_CHANGESET_ABORT;
}

/* Applies a changeset to the database, as sqlite3changeset_apply_v2 with this conflict handler, and sets *buffer and
 * *len to the buffer of the application, for changecap_rebase: the caller frees it by sqlite3_free. Where a constraint
 * of SQLite refuses a change, of which no other copy knows, the handler is not called, and the answer is ABORT.
 *   SQLITE_OK, or what sqlite3changeset_apply answers; SQLITE_CORRUPT (the bytes are no blob), SQLITE_MISUSE (they are
 *   a patchset), SQLITE_NOMEM. Unless it is SQLITE_OK nothing is applied, and *buffer is NULL. */
static inline int changecap_sqlite_apply(sqlite3 *database, int n, const void *changeset,
                                         changecap_sqlite_conflict conflict, void *context, void **buffer, int *len){
  changecap_iter it = CHANGECAP_CLOSED;
  changecap_sqlite_noted noted = { &it, conflict, context };
  changecap_fault fault;
  size_t written = 0;
  *buffer = NULL;
  *len = 0;
  uint32_t status = changecap_iter_open(changeset, (size_t)n, &it, &fault);
  if( status != CHANGECAP_OK ) return status == CHANGECAP_NOMEM ? SQLITE_NOMEM : SQLITE_CORRUPT;
  int code = SQLITE_MISUSE;
  if( changecap_iter_buffer(&it, CHANGECAP_KEYS_PLACES, NULL, 0, &written) == CHANGECAP_OK )
    code = sqlite3_exec(database, "SAVEPOINT changecap_sqlite_apply", NULL, NULL, NULL);
  if( code == SQLITE_OK ){
    code = sqlite3changeset_apply(database, n, (void *)changeset, NULL, changecap_sqlite_note, &noted);
    *buffer = code == SQLITE_OK ? sqlite3_malloc(n + 1) : NULL;
    if( code == SQLITE_OK && (*buffer == NULL || changecap_iter_buffer(&it, CHANGECAP_KEYS_PLACES, *buffer, (size_t)n,
                                                                       &written) != CHANGECAP_OK) ){
      code = SQLITE_NOMEM;
      sqlite3_free(*buffer);
      *buffer = NULL;
      sqlite3_exec(database, "ROLLBACK TO changecap_sqlite_apply", NULL, NULL, NULL);
    }
    sqlite3_exec(database, "RELEASE changecap_sqlite_apply", NULL, NULL, NULL);
    *len = (int)written;
  }
  changecap_iter_close(&it);
  return code;
}

#ifdef __cplusplus
}
#endif

#endif
