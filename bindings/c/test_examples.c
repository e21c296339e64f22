/*
 * The examples of README.md and of docs/manual/c.md, and tests of what each does.
 */
#include "testing.h"

#include <pthread.h>

/* ---- A session ---- */

/* What a capture has, in memory that the caller frees, or NULL. */
static uint8_t *changeset_of(changecap_capture *capture, size_t *len){
  uint8_t *out = NULL;
  size_t room = 0;
  uint32_t status;
  while( (status = changecap_capture_changeset(capture, CHANGECAP_KEYS_PLACES, out, room, len)) == CHANGECAP_ROOM ){
    uint8_t *more = realloc(out, *len);
    if( more == NULL ) break;
    out = more;
    room = *len;
  }
  if( status == CHANGECAP_OK ) return out;
  free(out);
  return NULL;
}

static void captured_session(void){
  changecap_client client = CHANGECAP_CLOSED;
  changecap_batch batch = CHANGECAP_CLOSED;
  changecap_capture capture = CHANGECAP_CLOSED;
  changecap_fault fault;
  uint64_t version, session;
  const uint8_t key[] = { 1, 0 }; /* two columns, the first of them in the primary key */
  uint8_t row[64], out[256];
  size_t n, len;
  if( changecap_open(&client) != CHANGECAP_OK ) return;
  changecap_create(&client, "t", 1, key, 2, &version, &fault);
  changecap_session_new(&client, &session, &fault);
  changecap_session_attach(&client, session, "t", 1, &fault);
  n = changecap_put_int(row, 1);
  n += changecap_put_text(row + n, "x", 1);
  changecap_batch_open(&batch);
  changecap_insert(&batch, "t", 1, row, n, CHANGECAP_DIRECT, &fault); /* insert t (1,'x') */
  if( changecap_commit(&client, &batch, &version, &fault) == CHANGECAP_REFUSED )
    fprintf(stderr, "E%u at operation %zu\n", fault.kind, fault.at);
  changecap_batch_close(&batch);
  changecap_session_capture(&client, session, &capture, &fault);
  changecap_capture_changeset(&capture, CHANGECAP_KEYS_PLACES, out, sizeof out, &len);
  CHECK(is_hex((bytes){ out, len }, INSERT));
  uint8_t *made = changeset_of(&capture, &len);
  CHECK(made != NULL && is_hex((bytes){ made, len }, INSERT));
  free(made);
  changecap_capture_close(&capture);
  CHECK(changecap_session_capture(&client, session + 1, &capture, &fault) == CHANGECAP_REFUSED);
  CHECK(fault.kind == CHANGECAP_E_NO_SESSION);
  changecap_close(&client);
}

/* ---- Applying ---- */

/* Applies a changeset where nothing is in the way. Else by other answers: rows that differ and keys in use take what
 * the changeset has, and changes of missing rows are left out. */
static uint32_t applied(changecap_client *client, const uint8_t *changeset, size_t n, changecap_report *report,
                        changecap_fault *fault){
  uint32_t status = changecap_apply(client, changeset, n, CHANGECAP_ABORT, CHANGECAP_ABORT, CHANGECAP_ABORT, report,
                                    fault);
  if( status == CHANGECAP_REFUSED && fault->kind == CHANGECAP_E_ABORTED ) /* change fault->at met a conflict */
    status = changecap_apply(client, changeset, n, CHANGECAP_REPLACE, CHANGECAP_OMIT, CHANGECAP_REPLACE, report, fault);
  return status;
}

/* A client of a history with the table t, whose key is its first column, or a closed one. */
static changecap_client with_table(void){
  changecap_client client = CHANGECAP_CLOSED;
  changecap_fault fault;
  uint64_t version;
  CHECK(changecap_open(&client) == CHANGECAP_OK);
  CHECK(changecap_create(&client, "t", 1, "\1\0", 2, &version, &fault) == CHANGECAP_OK);
  return client;
}

static void applied_changesets(void){
  changecap_client client = with_table();
  changecap_fault fault = { 77, 77 };
  changecap_report report;
  bytes insert = of_hex(INSERT, strlen(INSERT)), update = of_hex(UPDATE, strlen(UPDATE));
  CHECK(applied(&client, insert.at, insert.n, &report, &fault) == CHANGECAP_OK);
  CHECK(report.applied == 1 && report.conflicts == 0 && fault.kind == 77);
  CHECK(applied(&client, insert.at, insert.n, &report, &fault) == CHANGECAP_OK);
  CHECK(report.applied == 1 && report.conflicts == 1 && fault.kind == CHANGECAP_E_ABORTED && fault.at == 0);
  CHECK(applied(&client, update.at, update.n, &report, &fault) == CHANGECAP_OK && report.conflicts == 0);
  CHECK(applied(&client, update.at, update.n, &report, &fault) == CHANGECAP_OK && report.conflicts == 1);
  CHECK(applied(&client, (const uint8_t *)"T\x80", 2, &report, &fault) == CHANGECAP_MALFORMED && fault.kind == 3);
  free(insert.at);
  free(update.at);
  changecap_close(&client);
}

/* ---- Blobs ---- */

/* The inverse of a changeset, in memory that the caller frees, or NULL. It is no longer than the changeset. */
static uint8_t *inverse_of(const uint8_t *changeset, size_t n, size_t *len){
  changecap_fault fault;
  uint8_t *out = malloc(n);
  if( out == NULL ) return NULL;
  switch( changecap_invert(changeset, n, CHANGECAP_KEYS_PLACES, out, n, len, &fault) ){
    case CHANGECAP_OK:        return out;
    case CHANGECAP_MALFORMED: fprintf(stderr, "D%u at %zu\n", fault.kind, fault.at); break;
    case CHANGECAP_PATCHSET:  fputs("only a changeset has an inverse\n", stderr); break;
    case CHANGECAP_NOMEM:     fputs("out of memory\n", stderr); break;
  }
  free(out);
  return NULL;
}

/* The sum of the integers in the first column of the rows that a blob inserts. */
static int64_t sum_of_inserted(const uint8_t *blob, size_t n, changecap_fault *fault){
  changecap_iter it = CHANGECAP_CLOSED;
  changecap_change change;
  changecap_value value;
  int64_t sum = 0;
  if( changecap_iter_open(blob, n, &it, fault) != CHANGECAP_OK ) return -1;
  while( changecap_iter_next(&it) == CHANGECAP_ROW ){
    changecap_iter_op(&it, &change);
    changecap_iter_new(&it, 0, &value);
    if( change.op == CHANGECAP_INSERT && value.type == CHANGECAP_INTEGER ) sum += value.number;
  }
  changecap_iter_close(&it);
  return sum;
}

/* Opens an iterator over the changes of a blob that comes in pieces. */
static uint32_t opened_from(FILE *file, changecap_iter *it, changecap_fault *fault){
  changecap_decoder decoder = CHANGECAP_CLOSED;
  uint8_t piece[4096];
  size_t n;
  uint32_t status = changecap_decoder_open(&decoder);
  if( status != CHANGECAP_OK ) return status;
  while( (n = fread(piece, 1, sizeof piece, file)) > 0 ){
    status = changecap_decoder_feed(&decoder, piece, n, fault);
    if( status != CHANGECAP_OK ){
      changecap_decoder_close(&decoder);
      return status;
    }
  }
  return changecap_decoder_finish(&decoder, it, fault);
}

static uint32_t opened_from_bytes(const char *at, size_t n, changecap_iter *it, changecap_fault *fault){
  FILE *file = tmpfile();
  CHECK(file != NULL && fwrite(at, 1, n, file) == n);
  rewind(file);
  uint32_t status = opened_from(file, it, fault);
  fclose(file);
  return status;
}

static void read_blobs(void){
  bytes blob = of_hex(INSERT, strlen(INSERT));
  changecap_iter it = CHANGECAP_CLOSED;
  changecap_fault fault = { 77, 77 };
  size_t len;
  uint8_t *inverse = inverse_of(blob.at, blob.n, &len);
  CHECK(inverse != NULL && is_hex((bytes){ inverse, len }, DELETE));
  free(inverse);
  CHECK(sum_of_inserted(blob.at, blob.n, &fault) == 1 && fault.kind == 77);
  CHECK(sum_of_inserted(blob.at, blob.n - 1, &fault) == -1 && fault.kind == CHANGECAP_TRUNCATED);
  CHECK(opened_from_bytes((const char *)blob.at, blob.n, &it, &fault) == CHANGECAP_OK);
  CHECK(changecap_iter_next(&it) == CHANGECAP_ROW && changecap_iter_next(&it) == CHANGECAP_DONE);
  changecap_iter_close(&it);
  CHECK(opened_from_bytes("T\x80", 2, &it, &fault) == CHANGECAP_MALFORMED && fault.kind == CHANGECAP_BAD_VARINT);
  free(blob.at);
}

/* ---- Rebasing ---- */

/* Applies what a hub has changed, where the client's rows stay, and writes what the client has changed itself, rebased
 * for the hub. */
static uint32_t rebased(changecap_client *client, bytes hub, bytes own, uint8_t *out, size_t room, size_t *len){
  changecap_iter it = CHANGECAP_CLOSED;
  changecap_report report;
  changecap_fault fault;
  size_t n, refused;
  uint8_t *buffer = malloc(hub.n + 1); /* it is no longer than the hub's changeset */
  uint32_t status = buffer ? changecap_iter_open(hub.at, hub.n, &it, &fault) : CHANGECAP_NOMEM;
  if( status == CHANGECAP_OK )
    status = changecap_apply_iter(client, &it, CHANGECAP_OMIT, CHANGECAP_OMIT, CHANGECAP_OMIT, &report, &fault);
  if( status == CHANGECAP_OK ) status = changecap_iter_buffer(&it, CHANGECAP_KEYS_PLACES, buffer, hub.n, &n);
  if( status == CHANGECAP_OK )
    status = changecap_rebase(own.at, own.n, buffer, n, CHANGECAP_KEYS_PLACES, out, room, len, &fault, &refused);
  changecap_iter_close(&it);
  free(buffer);
  return status;
}

static void rebased_changesets(void){
  changecap_client client = with_table();
  changecap_report report;
  changecap_fault fault;
  bytes hub = of_hex(INSERT, strlen(INSERT)), own = of_hex(INSERT, strlen(INSERT));
  uint8_t out[64];
  size_t len;
  own.at[own.n - 1] = 'y';
  CHECK(applied(&client, own.at, own.n, &report, &fault) == CHANGECAP_OK);
  CHECK(rebased(&client, hub, own, out, sizeof out, &len) == CHANGECAP_OK && is_hex((bytes){ out, len }, UPDATE));
  changecap_close(&client);
  free(hub.at);
  free(own.at);
}

/* ---- Rows ---- */

/* The sum of the integers in the second column of the table t, or -1. */
static int64_t sum_of_rows(changecap_client *client){
  changecap_snapshot snapshot = CHANGECAP_CLOSED;
  changecap_rows rows = CHANGECAP_CLOSED;
  changecap_fault fault;
  changecap_value value;
  int64_t sum = 0;
  if( changecap_snapshot_open(client, &snapshot) != CHANGECAP_OK ) return -1;
  uint32_t status = changecap_scan(&snapshot, "t", 1, &rows, &fault);
  changecap_snapshot_close(&snapshot);
  if( status != CHANGECAP_OK ) return -1;
  while( changecap_step(&rows) == CHANGECAP_ROW ){
    changecap_column(&rows, 1, &value);
    if( value.type == CHANGECAP_INTEGER ) sum += value.number;
  }
  changecap_rows_close(&rows);
  return sum;
}

/* ---- Dump and load ---- */

/* Makes the table t of a history on another one. The dump is at most so long. */
static uint32_t copied(changecap_client *client, changecap_client *copy, uint8_t *out, size_t room){
  changecap_snapshot snapshot = CHANGECAP_CLOSED;
  changecap_report report;
  changecap_fault fault;
  size_t len;
  uint32_t status = changecap_snapshot_open(client, &snapshot);
  if( status != CHANGECAP_OK ) return status;
  status = changecap_dump(&snapshot, "t", 1, CHANGECAP_KEYS_PLACES, out, room, &len);
  changecap_snapshot_close(&snapshot);
  if( status == CHANGECAP_OK ) status = changecap_load(copy, out, len, &report, &fault);
  return status;
}

static void copied_tables(void){
  changecap_client client = with_table(), copy = CHANGECAP_CLOSED;
  changecap_fault fault;
  uint8_t out[64];
  CHECK(changecap_open(&copy) == CHANGECAP_OK);
  CHECK(changecap_call(&client, "commit insert t (1,7)", 21, &fault) == CHANGECAP_OK);
  CHECK(copied(&client, &copy, out, sizeof out) == CHANGECAP_OK && sum_of_rows(&copy) == 7);
  CHECK(copied(&client, &copy, out, sizeof out) == CHANGECAP_REFUSED);
  changecap_close(&copy);
  changecap_close(&client);
}

/* ---- Several threads ---- */

/* Adds to the second column of a row, which it reads, in a transaction of its own. */
static uint32_t prepared(changecap_client *client, int64_t at, int64_t more, changecap_batch *batch,
                         changecap_fault *fault){
  changecap_snapshot snapshot = CHANGECAP_CLOSED;
  changecap_transaction transaction = CHANGECAP_CLOSED;
  changecap_rows rows = CHANGECAP_CLOSED;
  changecap_value value;
  uint8_t key[CHANGECAP_FIELD_MAX(0)], fields[2 * CHANGECAP_FIELD_MAX(0)];
  size_t m = changecap_put_int(key, at), n = changecap_put_undefined(fields);
  uint32_t status = changecap_snapshot_open(client, &snapshot);
  if( status != CHANGECAP_OK ) return status;
  status = changecap_begin(&snapshot, &transaction);
  changecap_snapshot_close(&snapshot);
  if( status != CHANGECAP_OK ) return status;
  status = changecap_transaction_get(&transaction, "t", 1, key, m, 0, &rows, fault);
  if( status == CHANGECAP_OK && changecap_step(&rows) == CHANGECAP_ROW ){
    changecap_column(&rows, 1, &value);
    n += changecap_put_int(fields + n, value.number + more);
    status = changecap_transaction_update(&transaction, "t", 1, key, m, 0, fields, n, CHANGECAP_DIRECT, fault);
  }
  changecap_rows_close(&rows);
  if( status == CHANGECAP_OK ) status = changecap_end(&transaction, batch);
  changecap_rollback(&transaction);
  return status;
}

/* The same as a commit. It begins again where another thread has changed the row in between. */
static uint32_t added(changecap_client *client, int64_t at, int64_t more, changecap_fault *fault){
  changecap_batch batch = CHANGECAP_CLOSED;
  uint64_t version;
  uint32_t status;
  do{
    status = prepared(client, at, more, &batch, fault);
    if( status != CHANGECAP_OK ) return status;
    status = changecap_commit(client, &batch, &version, fault);
    changecap_batch_close(&batch);
  }while( status == CHANGECAP_REFUSED && fault->kind == CHANGECAP_E_STALE );
  return status;
}

typedef struct worker {
  changecap_client client;
  size_t commits;
} worker;

static void *work(void *given){
  worker *own = given;
  changecap_fault fault;
  for(int i = 0; i < 100; i++)
    if( added(&own->client, 1, 1, &fault) == CHANGECAP_OK ) own->commits++;
  changecap_close(&own->client);
  return NULL;
}

/* Starts a thread with a client of its own. Whether it has both. */
static int started(pthread_t *thread, worker *own, changecap_client *client){
  if( changecap_join(&own->client, client) != CHANGECAP_OK ) return 0;
  return pthread_create(thread, NULL, work, own) == 0;
}

/* Two threads add to one row. */
static void shared_history(void){
  changecap_client client = with_table();
  worker both[2] = { { CHANGECAP_CLOSED, 0 }, { CHANGECAP_CLOSED, 0 } };
  pthread_t thread[2];
  changecap_fault fault;
  CHECK(changecap_call(&client, "commit insert t (1,0)", 21, &fault) == CHANGECAP_OK);
  for(int i = 0; i < 2; i++) CHECK(started(&thread[i], &both[i], &client));
  for(int i = 0; i < 2; i++) CHECK(pthread_join(thread[i], NULL) == 0);
  CHECK(both[0].commits == 100 && both[1].commits == 100 && sum_of_rows(&client) == 200);
  changecap_close(&client);
}

void test_examples(void){
  captured_session();
  applied_changesets();
  read_blobs();
  rebased_changesets();
  copied_tables();
  shared_history();
}
