/*
 * Tests of changecap_sqlite.h: of the same rows and the same answers SQLite's application has the buffer that
 * changecap's has, and leaves the same rows.
 */
#include <changecap_sqlite.h>

#include <stdio.h>
#include <stdlib.h>

static long passed, failed;

#define CHECK(holds) do{ \
  if( holds ) passed++; \
  else failed++, fprintf(stderr, "%s:%d: %s\n", __FILE__, __LINE__, #holds); \
}while( 0 )

/* Rows of a hub, what it changes of them, and what a client has done to its copy: there each change meets a conflict,
 * but for that of the row with 'd'. A key of t has two columns, of any types. The table u has an integer as its key. */
static const char *const tables[] = { "create t kkv", "create u kv" };
static const char *const base[] = {
  "commit insert t ('a',x'00',1); insert t ('b',1,1); insert t ('',x'',1); insert t ('d',2,1); insert t ('e',3,1)",
  "commit insert u (7,'x'); insert u (8,'x'); insert u (9,'x')",
};
static const char *const changes[] = {
  "commit update t key('a',x'00') set 2 = 2; delete t key('b',1); update t key('',x'') set 2 = null",
  "commit update t key('d',2) set 2 = 2; delete t key('e',3); insert t ('f',x'ff',2)",
  "commit update u key(7) set 1 = 'theirs'; insert u (10,'theirs'); delete u key(8)",
};
static const char *const own[] = {
  "commit update t key('a',x'00') set 2 = 3; update t key('b',1) set 2 = 3; delete t key('',x''); delete t key('e',3)",
  "commit insert t ('f',x'ff',3); update u key(7) set 1 = 'ours'; insert u (10,'ours'); delete u key(8)",
};
static const char *const own_sql[] = {
  "CREATE TABLE t(a, b, c, PRIMARY KEY(a, b)); CREATE TABLE u(id INTEGER PRIMARY KEY, text)",
  "INSERT INTO t VALUES('a', x'00', 3), ('b', 1, 3), ('d', 2, 1), ('f', x'ff', 3)",
  "INSERT INTO u VALUES(7, 'ours'), (9, 'x'), (10, 'ours')",
};

static void run(changecap_client *on, const char *const *lines, size_t n){
  changecap_fault fault;
  for(size_t i = 0; i < n; i++) CHECK(changecap_call(on, lines[i], strlen(lines[i]), &fault) == CHANGECAP_OK);
}

#define RUN(on, lines) run(on, lines, sizeof (lines) / sizeof *(lines))

/* What the hub changes, as a changeset. */
static size_t captured(uint8_t *out, size_t room){
  changecap_client hub = CHANGECAP_CLOSED;
  changecap_capture capture = CHANGECAP_CLOSED;
  changecap_fault fault;
  uint64_t session;
  size_t n = 0;
  CHECK(changecap_open(&hub) == CHANGECAP_OK);
  RUN(&hub, tables);
  RUN(&hub, base);
  CHECK(changecap_session_new(&hub, &session, &fault) == CHANGECAP_OK);
  CHECK(changecap_session_attach_all(&hub, session, &fault) == CHANGECAP_OK);
  RUN(&hub, changes);
  CHECK(changecap_session_capture(&hub, session, &capture, &fault) == CHANGECAP_OK);
  CHECK(changecap_capture_changeset(&capture, CHANGECAP_KEYS_PLACES, out, room, &n) == CHANGECAP_OK);
  changecap_capture_close(&capture);
  changecap_close(&hub);
  return n;
}

/* What the handler answers, how often it is called, and of which call on it aborts. */
typedef struct answers {
  int data, notfound, conflict, calls, last;
} answers;

static int answer(void *context, int kind, sqlite3_changeset_iter *change){
  answers *of = context;
  sqlite3_value *value = NULL;
  if( kind != SQLITE_CHANGESET_NOTFOUND ) CHECK(sqlite3changeset_conflict(change, 0, &value) == SQLITE_OK && value);
  if( of->calls++ == of->last ) return SQLITE_CHANGESET_ABORT;
  return kind == SQLITE_CHANGESET_DATA ? of->data : kind == SQLITE_CHANGESET_NOTFOUND ? of->notfound : of->conflict;
}

static sqlite3 *opened(void){
  sqlite3 *made;
  CHECK(sqlite3_open(":memory:", &made) == SQLITE_OK);
  for(size_t i = 0; i < sizeof own_sql / sizeof *own_sql; i++)
    CHECK(sqlite3_exec(made, own_sql[i], NULL, NULL, NULL) == SQLITE_OK);
  return made;
}

static int note_text(void *to, int columns, char **values, char **names){
  (void)names;
  for(int i = 0; i < columns; i++) strcat(strcat(to, values[i] ? values[i] : "NULL"), i + 1 < columns ? "," : ";");
  return 0;
}

/* The rows of a database, as text. */
static void rows_of(sqlite3 *of, char *text){
  *text = 0;
  CHECK(sqlite3_exec(of, "SELECT quote(a), quote(b), c FROM t ORDER BY a, b", note_text, text, NULL) == SQLITE_OK);
  CHECK(sqlite3_exec(of, "SELECT id, text FROM u ORDER BY id", note_text, text, NULL) == SQLITE_OK);
}

/* Both applications, with the same answers. */
static void agrees(const uint8_t *changeset, size_t n, int data, int conflict, const char *rows){
  changecap_client client = CHANGECAP_CLOSED;
  changecap_iter it = CHANGECAP_CLOSED;
  changecap_report report;
  changecap_fault fault;
  answers given = { data, SQLITE_CHANGESET_OMIT, conflict, 0, -1 };
  uint8_t wanted[1024];
  char text[1024];
  size_t len = 0;
  void *buffer;
  int found;
  sqlite3 *database = opened();
  CHECK(changecap_sqlite_apply(database, (int)n, changeset, answer, &given, &buffer, &found) == SQLITE_OK);
  rows_of(database, text);
  CHECK(strcmp(text, rows) == 0 || (fprintf(stderr, "%s\n", text), 0));
  CHECK(changecap_open(&client) == CHANGECAP_OK);
  RUN(&client, tables);
  RUN(&client, base);
  RUN(&client, own);
  CHECK(changecap_iter_open(changeset, n, &it, &fault) == CHANGECAP_OK);
  CHECK(changecap_apply_iter(&client, &it, data ? CHANGECAP_REPLACE : CHANGECAP_OMIT, CHANGECAP_OMIT,
                             conflict ? CHANGECAP_REPLACE : CHANGECAP_OMIT, &report, &fault) == CHANGECAP_OK);
  CHECK(report.conflicts == 8 && given.calls == 8);
  CHECK(changecap_iter_buffer(&it, CHANGECAP_KEYS_PLACES, wanted, sizeof wanted, &len) == CHANGECAP_OK);
  CHECK(len > 0 && (size_t)found == len && memcmp(buffer, wanted, len) == 0);
  sqlite3_free(buffer);
  sqlite3_close(database);
  changecap_iter_close(&it);
  changecap_close(&client);
}

/* Where the application fails nothing is applied, and there is no buffer. */
static void fails(const void *blob, size_t n, const char *more, int last, int wanted){
  char before[1024], after[1024];
  answers given = { SQLITE_CHANGESET_OMIT, SQLITE_CHANGESET_OMIT, SQLITE_CHANGESET_OMIT, 0, last };
  int len = 7;
  sqlite3 *database = opened();
  void *buffer = database;
  CHECK(sqlite3_exec(database, more, NULL, NULL, NULL) == SQLITE_OK);
  rows_of(database, before);
  CHECK(changecap_sqlite_apply(database, (int)n, blob, answer, &given, &buffer, &len) == wanted);
  rows_of(database, after);
  CHECK(buffer == NULL && len == 0 && strcmp(before, after) == 0 && sqlite3_get_autocommit(database));
  sqlite3_close(database);
}

int main(void){
  uint8_t changeset[1024], patchset[1024];
  changecap_fault fault;
  size_t n = captured(changeset, sizeof changeset), m = 0;
  agrees(changeset, n, SQLITE_CHANGESET_OMIT, SQLITE_CHANGESET_OMIT,
         "'a',X'00',3;'b',1,3;'d',2,2;'f',X'FF',3;7,ours;9,x;10,ours;");
  agrees(changeset, n, SQLITE_CHANGESET_REPLACE, SQLITE_CHANGESET_OMIT,
         "'a',X'00',2;'d',2,2;'f',X'FF',3;7,theirs;9,x;10,ours;");
  agrees(changeset, n, SQLITE_CHANGESET_OMIT, SQLITE_CHANGESET_REPLACE,
         "'a',X'00',3;'b',1,3;'d',2,2;'f',X'FF',2;7,ours;9,x;10,theirs;");
  for(int last = 0; last < 8; last++) fails(changeset, n, "", last, SQLITE_ABORT);
  fails(changeset, n, "INSERT INTO t VALUES('x', 1, 2); CREATE UNIQUE INDEX i ON t(c) WHERE a IN ('d', 'x')", -1,
        SQLITE_ABORT);
  fails("T\x80", 2, "", -1, SQLITE_CORRUPT);
  CHECK(changecap_patchset(changeset, n, CHANGECAP_KEYS_PLACES, patchset, sizeof patchset, &m, &fault) == CHANGECAP_OK);
  fails(patchset, m, "", -1, SQLITE_MISUSE);
  printf("%ld passed, %ld failed\n", passed, failed);
  return failed != 0;
}
