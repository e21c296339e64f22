/* A session captures what three commits change. The changeset is read, and applied to a second server. */
#include <changecap.h>
#include <stdio.h>
#include <stdlib.h>

static changecap_fault fault;

static void check(uint32_t status, int line){
  if( status == CHANGECAP_OK ) return;
  fprintf(stderr, "line %d: %s (%u at %zu)\n", line, changecap_errstr(status), (unsigned)fault.kind, fault.at);
  exit(1);
}
#define OK(call) check(call, __LINE__)

static size_t stock(uint8_t *to, int64_t id, const char *name, int64_t count){
  size_t n = changecap_put_int(to, id);
  n += changecap_put_text(to + n, name, strlen(name));
  return n + changecap_put_int(to + n, count);
}

/* A server whose table stock has three rows. */
static void begin(changecap_client *client){
  static const uint8_t key[] = { 1, 0, 0 };
  static const char *const names[] = { "apples", "pears", "plums" };
  static const int64_t counts[] = { 40, 25, 12 };
  changecap_batch batch = CHANGECAP_CLOSED;
  uint64_t version;
  uint8_t row[64];
  OK(changecap_open(client));
  OK(changecap_create(client, "stock", 5, key, 3, &version, &fault));
  OK(changecap_batch_open(&batch));
  for(int i = 0; i < 3; i++)
    OK(changecap_insert(&batch, "stock", 5, row, stock(row, i + 1, names[i], counts[i]), CHANGECAP_DIRECT, &fault));
  OK(changecap_commit(client, &batch, &version, &fault));
  changecap_batch_close(&batch);
}

static void print_value(const changecap_value *value, const uint8_t *bytes){
  switch( value->type ){
    case CHANGECAP_UNDEFINED: printf("-"); break;
    case CHANGECAP_NULL:      printf("null"); break;
    case CHANGECAP_INTEGER:   printf("%lld", (long long)value->number); break;
    case CHANGECAP_TEXT:      printf("'%.*s'", (int)value->len, (const char *)bytes); break;
    case CHANGECAP_BLOB:
      printf("x'");
      for(size_t i = 0; i < value->len; i++) printf("%02x", (unsigned)bytes[i]);
      printf("'");
      break;
  }
}

static void print_side(changecap_iter *it, size_t columns, int is_new){
  changecap_value value;
  uint8_t bytes[64];
  size_t len;
  for(size_t column = 0; column < columns; column++){
    OK(is_new ? changecap_iter_new(it, column, &value) : changecap_iter_old(it, column, &value));
    OK(is_new ? changecap_iter_new_bytes(it, column, bytes, sizeof bytes, &len)
              : changecap_iter_old_bytes(it, column, bytes, sizeof bytes, &len));
    printf(column ? "," : "(");
    print_value(&value, bytes);
  }
  printf(")");
}

static void print_changes(const uint8_t *blob, size_t n){
  changecap_iter it = CHANGECAP_CLOSED;
  changecap_change change;
  char table[255];
  size_t len;
  OK(changecap_iter_open(blob, n, &it, &fault));
  while( changecap_iter_next(&it) == CHANGECAP_ROW ){
    OK(changecap_iter_op(&it, &change));
    OK(changecap_iter_table(&it, table, sizeof table, &len));
    printf("%s %.*s ", change.op == CHANGECAP_INSERT ? "insert" : change.op == CHANGECAP_UPDATE ? "update" : "delete",
           (int)len, table);
    if( change.op != CHANGECAP_INSERT ) print_side(&it, change.columns, 0);
    if( change.op == CHANGECAP_UPDATE ) printf(" -> ");
    if( change.op != CHANGECAP_DELETE ) print_side(&it, change.columns, 1);
    printf("\n");
  }
  changecap_iter_close(&it);
}

static void print_rows(changecap_client *client){
  changecap_snapshot snapshot = CHANGECAP_CLOSED;
  changecap_rows rows = CHANGECAP_CLOSED;
  changecap_value value;
  uint8_t bytes[64];
  size_t columns, len;
  OK(changecap_snapshot_open(client, &snapshot));
  OK(changecap_scan(&snapshot, "stock", 5, &rows, &fault));
  changecap_snapshot_close(&snapshot);
  while( changecap_step(&rows) == CHANGECAP_ROW ){
    OK(changecap_columns(&rows, &columns));
    for(size_t column = 0; column < columns; column++){
      OK(changecap_column(&rows, column, &value));
      OK(changecap_column_bytes(&rows, column, bytes, sizeof bytes, &len));
      printf(column ? "," : "(");
      print_value(&value, bytes);
    }
    printf(")\n");
  }
  changecap_rows_close(&rows);
}

int main(void){
  changecap_client first = CHANGECAP_CLOSED, second = CHANGECAP_CLOSED;
  changecap_batch batch = CHANGECAP_CLOSED;
  changecap_capture capture = CHANGECAP_CLOSED;
  changecap_report report;
  uint64_t session, version;
  uint8_t key[16], row[64], *blob = NULL;
  size_t m, n, room = 0;
  uint32_t status;
  begin(&first);
  begin(&second);
  OK(changecap_session_new(&first, &session, &fault));
  OK(changecap_session_attach(&first, session, "stock", 5, &fault));
  OK(changecap_batch_open(&batch));

  m = changecap_put_int(key, 1); /* update stock key(1) set 2 = 35 */
  n = changecap_put_undefined(row);
  n += changecap_put_undefined(row + n);
  n += changecap_put_int(row + n, 35);
  OK(changecap_update(&batch, "stock", 5, key, m, 0, row, n, CHANGECAP_DIRECT, &fault));
  OK(changecap_commit(&first, &batch, &version, &fault));

  m = changecap_put_int(key, 2); /* insert stock (4,'figs',9) ; delete stock key(2) */
  n = stock(row, 4, "figs", 9);
  OK(changecap_insert(&batch, "stock", 5, row, n, CHANGECAP_DIRECT, &fault));
  OK(changecap_delete(&batch, "stock", 5, key, m, 0, CHANGECAP_DIRECT, &fault));
  OK(changecap_commit(&first, &batch, &version, &fault));

  m = changecap_put_int(key, 3); /* update stock key(3) set 1 = null ; insert stock (5,x'00ff',null) */
  n = changecap_put_undefined(row);
  n += changecap_put_null(row + n);
  OK(changecap_update(&batch, "stock", 5, key, m, 0, row, n, CHANGECAP_DIRECT, &fault));
  n = changecap_put_int(row, 5);
  n += changecap_put_blob(row + n, "\x00\xff", 2);
  n += changecap_put_null(row + n);
  OK(changecap_insert(&batch, "stock", 5, row, n, CHANGECAP_DIRECT, &fault));
  OK(changecap_commit(&first, &batch, &version, &fault));
  changecap_batch_close(&batch);

  OK(changecap_session_capture(&first, session, &capture, &fault));
  OK(changecap_capture_version(&capture, &version));
  while( (status = changecap_capture_changeset(&capture, CHANGECAP_KEYS_PLACES, blob, room, &n)) == CHANGECAP_ROOM ){
    free(blob);
    if( (blob = malloc(room = n)) == NULL ) exit(1);
  }
  OK(status);
  changecap_capture_close(&capture);
  printf("captured at version %llu\n", (unsigned long long)version);
  print_changes(blob, n);
  OK(changecap_apply(&second, blob, n, CHANGECAP_ABORT, CHANGECAP_ABORT, CHANGECAP_ABORT, &report, &fault));
  printf("version %llu, applied %llu, conflicts %llu, omitted %llu, skipped %llu\n",
         (unsigned long long)report.version, (unsigned long long)report.applied, (unsigned long long)report.conflicts,
         (unsigned long long)report.omitted, (unsigned long long)report.skipped);
  print_rows(&second);
  free(blob);
  OK(changecap_session_drop(&first, session, &fault));
  changecap_close(&first);
  changecap_close(&second);
  return 0;
}
