/* Three databases of SQLite change the same rows, and get in step through a hub. ../README.md says how. */
#include <changecap_sqlite.h>

#include <stdio.h>
#include <stdlib.h>

/* Ends the program unless a call of the library, or of SQLite, is right: both have 0 for that. */
#define RIGHT(call) do{ if( (call) != 0 ){ fprintf(stderr, "%s\n", #call); exit(1); } }while( 0 )

/* Makes a call that writes so many bytes to a buffer, which grows where it is too short. */
#define WRITE(to, n, call) do{ \
  if( (call) == CHANGECAP_ROOM ){ RIGHT(((to) = realloc((to), (n))) == NULL); } RIGHT(call); }while( 0 )

/* A database, its session and the one at the hub, and the bytes of what it has
 * changed and the hub does not have yet. */
typedef struct client {
  sqlite3 *database; sqlite3_session *session; uint64_t at_hub; uint8_t *pending; size_t n;
} client;

static void begin_session(client *of){
  RIGHT(sqlite3session_create(of->database, "main", &of->session) || sqlite3session_attach(of->session, NULL));
}

/* Whether the hub's change is made, of those that are in conflict: the newest write of a row stays, by the stamp in its
 * last column, and a deletion in any case. Each write changes all columns. Of a row that is not there it cannot be
 * made. */
static int newest(void *context, int kind, sqlite3_changeset_iter *change){
  sqlite3_value *theirs, *ours;
  (void)context;
  if( kind == SQLITE_CHANGESET_NOTFOUND ) return SQLITE_CHANGESET_OMIT;
  if( sqlite3changeset_new(change, 2, &theirs) != SQLITE_OK ) return SQLITE_CHANGESET_REPLACE; /* a deletion */
  RIGHT(sqlite3changeset_conflict(change, 2, &ours));
  return sqlite3_value_int64(theirs) > sqlite3_value_int64(ours) ? SQLITE_CHANGESET_REPLACE : SQLITE_CHANGESET_OMIT;
}

/* Applies what others have changed since the last pull, and rebases what is pending over it. */
static void client_pull(client *of, changecap_client *hub){
  changecap_capture capture = CHANGECAP_CLOSED;
  changecap_fault fault;
  uint8_t *remote = NULL;
  size_t n = 0, refused;
  void *captured, *own, *buffer;
  int captured_n, own_n, buffer_n;
  RIGHT(changecap_session_restart(hub, of->at_hub, &capture, &fault));
  WRITE(remote, n, changecap_capture_changeset(&capture, CHANGECAP_KEYS_PLACES, remote, n, &n));
  RIGHT(sqlite3_exec(of->database, "BEGIN IMMEDIATE", NULL, NULL, NULL)); /* nobody writes from here to the commit */
  RIGHT(sqlite3session_changeset(of->session, &captured_n, &captured));
  sqlite3session_delete(of->session);
  RIGHT(sqlite3changeset_concat((int)of->n, of->pending, captured_n, captured, &own_n, &own));
  RIGHT(changecap_sqlite_apply(of->database, (int)n, remote, newest, NULL, &buffer, &buffer_n));
  begin_session(of);
  RIGHT(sqlite3_exec(of->database, "COMMIT", NULL, NULL, NULL));
  WRITE(of->pending, of->n, changecap_rebase(own, (size_t)own_n, buffer, (size_t)buffer_n, CHANGECAP_KEYS_PLACES,
                                             of->pending, of->n, &of->n, &fault, &refused));
  changecap_capture_close(&capture);
  sqlite3_free(captured);
  sqlite3_free(own);
  sqlite3_free(buffer);
  free(remote);
}

/* Lets the hub apply what is pending, unless others have changed something there since the last pull. */
static int client_push(client *of, changecap_client *hub){
  changecap_report report;
  changecap_passed passed;
  changecap_fault fault;
  uint32_t flag;
  RIGHT(changecap_session_isempty(hub, of->at_hub, &flag, &fault));
  if( !flag ) return 0;
  RIGHT(changecap_apply_with(hub, of->pending, of->n, CHANGECAP_ABORT, CHANGECAP_ABORT, CHANGECAP_ABORT,
                             &(changecap_options){ .quiet = &of->at_hub, .quiet_n = 1 }, &report, &passed, &fault));
  of->n = 0;
  return 1;
}

static void client_synchronise(client *of, changecap_client *hub){
  do client_pull(of, hub); while( !client_push(of, hub) ); /* others came between: what they have changed, too */
}

/* ---- A run ---- */

enum { CLIENTS = 3 };

/* Who writes which row, and when; and who deletes which, without a stamp. */
static const int changes[][3] = {
  { 0, 1, 20 }, { 1, 1, 31 }, { 2, 1, 22 }, { 0, 2, 40 }, { 1, 2, 21 }, { 2, 2, 32 }, { 1, 3, 51 }, { 1, 4, 61 },
  { 0, 5, 30 }, { 1, 5, 41 }, { 2, 5, 22 }, { 2, 6, 52 }, { 0, 3, 0 }, { 2, 4, 0 },
};

static void write_row(client *of, int number, int row, int stamp){
  char text[16] = "first", sql[160];
  if( stamp > 10 ) snprintf(text, sizeof text, "of %d", number);
  snprintf(sql, sizeof sql, "INSERT INTO t VALUES(%d, '%s', %d) ON CONFLICT(id) DO UPDATE "
           "SET text = excluded.text, stamp = excluded.stamp", row, text, stamp);
  if( stamp == 0 ) snprintf(sql, sizeof sql, "DELETE FROM t WHERE id = %d", row);
  RIGHT(sqlite3_exec(of->database, sql, NULL, NULL, NULL));
}

/* Puts a row behind others, as text. */
static void add_row(char *text, size_t room, long long id, int n, const char *of, long long stamp){
  size_t len = strlen(text);
  snprintf(text + len, room - len, "%s%lld %.*s at %lld", len ? ", " : "", id, n, of, stamp);
}

static void rows_of_client(client *of, char *text, size_t room){
  sqlite3_stmt *rows;
  sqlite3_prepare_v2(of->database, "SELECT * FROM t ORDER BY id", -1, &rows, NULL);
  for(*text = 0; sqlite3_step(rows) == SQLITE_ROW; )
    add_row(text, room, sqlite3_column_int64(rows, 0), 16, (const char *)sqlite3_column_text(rows, 1),
            sqlite3_column_int64(rows, 2));
  sqlite3_finalize(rows);
}

static void rows_of_hub(changecap_client *hub, char *text, size_t room){
  changecap_snapshot snapshot = CHANGECAP_CLOSED;
  changecap_rows rows = CHANGECAP_CLOSED;
  changecap_fault fault;
  changecap_value id, stamp;
  char name[16];
  size_t n = 0;
  *text = 0;
  if( changecap_snapshot_open(hub, &snapshot) != CHANGECAP_OK ) return;
  changecap_scan(&snapshot, "t", 1, &rows, &fault);
  while( changecap_step(&rows) == CHANGECAP_ROW ){
    changecap_column(&rows, 0, &id);
    changecap_column_bytes(&rows, 1, name, sizeof name, &n);
    changecap_column(&rows, 2, &stamp);
    add_row(text, room, id.number, (int)n, name, stamp.number);
  }
  changecap_rows_close(&rows);
  changecap_snapshot_close(&snapshot);
}

/* A hub with a session for each client, whose calls are made one at a time. */
static void hub_open(changecap_client *hub, client clients[CLIENTS]){
  changecap_fault fault;
  uint64_t version;
  RIGHT(changecap_open(hub));
  RIGHT(changecap_create(hub, "t", 1, "\1\0\0", 3, &version, &fault));
  for(int i = 0; i < CLIENTS; i++){
    RIGHT(changecap_session_new(hub, &clients[i].at_hub, &fault));
    RIGHT(changecap_session_attach(hub, clients[i].at_hub, "t", 1, &fault));
  }
}

static void client_open(client *of){
  RIGHT(sqlite3_open(":memory:", &of->database));
  RIGHT(sqlite3_exec(of->database, "CREATE TABLE t(id INTEGER PRIMARY KEY, text, stamp)", NULL, NULL, NULL));
  begin_session(of);
}

static void client_close(client *of){
  sqlite3session_delete(of->session);
  sqlite3_close(of->database);
  free(of->pending);
}

static void run(const int order[CLIENTS]){
  changecap_client hub = CHANGECAP_CLOSED;
  client clients[CLIENTS] = { { 0 } }, *second = &clients[order[1]];
  char text[512], other[512];
  hub_open(&hub, clients);
  for(int i = 0; i < CLIENTS; i++) client_open(&clients[i]);
  for(int row = 1; row <= 4; row++) write_row(&clients[0], 0, row, 10);
  for(int i = 0; i < CLIENTS; i++) client_synchronise(&clients[i], &hub);
  for(size_t i = 0; i < sizeof changes / sizeof *changes; i++)
    write_row(&clients[changes[i][0]], changes[i][0], changes[i][1], changes[i][2]);
  client_synchronise(&clients[order[0]], &hub);
  client_pull(second, &hub);
  client_synchronise(&clients[order[2]], &hub); /* between a pull of the second and its push */
  client_synchronise(second, &hub);
  for(int i = 0; i < CLIENTS; i++) client_synchronise(&clients[i], &hub);
  rows_of_hub(&hub, text, sizeof text);
  printf("%d %d %d - %s", order[0], order[1], order[2], text);
  for(int i = 0; i < CLIENTS; i++){
    rows_of_client(&clients[i], other, sizeof other);
    if( strcmp(text, other) != 0 ) printf(" | %s", other);
    client_close(&clients[i]);
  }
  putchar('\n');
  changecap_close(&hub);
}

int main(void){
  static const int orders[][CLIENTS] = { { 0, 1, 2 }, { 0, 2, 1 }, { 1, 0, 2 }, { 1, 2, 0 }, { 2, 0, 1 }, { 2, 1, 0 } };
  for(size_t i = 0; i < sizeof orders / sizeof *orders; i++) run(orders[i]);
}
