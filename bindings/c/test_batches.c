/*
 * Tests of the calls of changecap.h that put a batch together, and of those on snapshots, rows and transactions.
 */
#include "testing.h"

static uint32_t made_table(changecap_client *client, const char *name, const char *key){
  uint8_t columns[8];
  uint64_t version;
  changecap_fault fault;
  for(size_t i = 0; key[i]; i++) columns[i] = (uint8_t)(key[i] - '0');
  return changecap_create(client, name, strlen(name), columns, strlen(key), &version, &fault);
}

static bytes no_bytes(void){
  return copy_of(NULL, 0);
}

/* ---- Operations: what they are given is freed, so that they are made again with the same words ---- */

static uint32_t inserted(changecap_batch *batch, const char *name, bytes row, uint32_t cause, changecap_fault *fault){
  bytes table = copy_of((const uint8_t *)name, strlen(name));
  uint32_t status = changecap_insert(batch, table.at, table.n, row.at, row.n, cause, fault);
  free(table.at);
  free(row.at);
  return status;
}

static uint32_t updated(changecap_batch *batch, const char *name, bytes key, uint64_t id, bytes fields, uint32_t cause,
                        changecap_fault *fault){
  bytes table = copy_of((const uint8_t *)name, strlen(name));
  uint32_t status = changecap_update(batch, table.at, table.n, key.at, key.n, id, fields.at, fields.n, cause, fault);
  free(table.at);
  free(key.at);
  free(fields.at);
  return status;
}

static uint32_t deleted(changecap_batch *batch, const char *name, bytes key, uint64_t id, uint32_t cause,
                        changecap_fault *fault){
  bytes table = copy_of((const uint8_t *)name, strlen(name));
  uint32_t status = changecap_delete(batch, table.at, table.n, key.at, key.n, id, cause, fault);
  free(table.at);
  free(key.at);
  return status;
}

/* ---- Rows ---- */

static uint32_t got(changecap_snapshot *snapshot, const char *name, bytes key, uint64_t id, changecap_rows *rows,
                    changecap_fault *fault){
  bytes table = copy_of((const uint8_t *)name, strlen(name));
  uint32_t status = changecap_get(snapshot, table.at, table.n, key.at, key.n, id, rows, fault);
  CHECK((rows->at != NULL) == (status == CHANGECAP_OK));
  free(table.at);
  free(key.at);
  return status;
}

static uint32_t scanned(changecap_snapshot *snapshot, const char *name, changecap_rows *rows, changecap_fault *fault){
  bytes table = copy_of((const uint8_t *)name, strlen(name));
  uint32_t status = changecap_scan(snapshot, table.at, table.n, rows, fault);
  CHECK((rows->at != NULL) == (status == CHANGECAP_OK));
  free(table.at);
  return status;
}

static void reads_nothing(changecap_rows *rows){
  size_t columns = 77, len = 99;
  uint64_t id = 77;
  changecap_value value = { 77, 77, 77 };
  uint8_t none = 0xaa;
  CHECK(changecap_row_id(rows, &id) == CHANGECAP_MISUSE && id == 77);
  CHECK(changecap_columns(rows, &columns) == CHANGECAP_MISUSE && columns == 77);
  CHECK(changecap_column(rows, 0, &value) == CHANGECAP_MISUSE && value.type == 77);
  CHECK(changecap_column_bytes(rows, 0, &none, 1, &len) == CHANGECAP_MISUSE && none == 0xaa);
  CHECK(changecap_row(rows, &none, 1, &len) == CHANGECAP_MISUSE && none == 0xaa && len == 99);
}

/* Whether the row's record is that of its columns: the values are put into a record, and compared. */
static void is_recorded(changecap_rows *rows, size_t columns){
  uint8_t fields[256], *made;
  size_t n = 0, len = 0;
  for(size_t column = 0; column < columns; column++){
    changecap_value value;
    uint8_t content[64];
    CHECK(changecap_column(rows, column, &value) == CHANGECAP_OK);
    CHECK(changecap_column_bytes(rows, column, content, sizeof content, &len) == CHANGECAP_OK);
    if( value.type == CHANGECAP_INTEGER ) n += changecap_put_int(fields + n, value.number);
    else if( value.type == CHANGECAP_NULL ) n += changecap_put_null(fields + n);
    else n += changecap_put_bytes(fields + n, value.type, content, len);
  }
  CHECK(changecap_row(rows, NULL, 0, &len) == CHANGECAP_ROOM && len == n);
  made = __real_malloc(n);
  CHECK(changecap_row(rows, made, n - 1, &len) == CHANGECAP_ROOM);
  CHECK(changecap_row(rows, made, n, &len) == CHANGECAP_OK && len == n && !memcmp(made, fields, n));
  free(made);
}

/* Whether the next row, if any, has this text: its id, or a dash where it has a key, and its values. */
static int next_is(changecap_rows *rows, const char *wanted){
  char text[256] = "";
  size_t n = 0, columns = 77, len = 99;
  uint64_t id = 77;
  changecap_value value = { 77, 77, 77 };
  uint8_t none = 0xaa;
  if( changecap_step(rows) == CHANGECAP_DONE ){
    reads_nothing(rows);
    return !*wanted;
  }
  CHECK(changecap_row_id(rows, &id) == CHANGECAP_OK && changecap_columns(rows, &columns) == CHANGECAP_OK);
  n += (size_t)(id ? sprintf(text, "%llu", (unsigned long long)id) : sprintf(text, "-"));
  for(size_t column = 0; column < columns; column++){
    CHECK(changecap_column(rows, column, &value) == CHANGECAP_OK);
    bytes made = { __real_malloc(value.len + 1), value.len };
    CHECK(changecap_column_bytes(rows, column, made.at, made.n, &len) == CHANGECAP_OK && len == value.len);
    if( made.n ) CHECK(changecap_column_bytes(rows, column, made.at, made.n - 1, &len) == CHANGECAP_ROOM);
    switch( value.type ){
      case CHANGECAP_INTEGER: n += (size_t)sprintf(text + n, " %lld", (long long)value.number); break;
      case CHANGECAP_TEXT: n += (size_t)sprintf(text + n, " '%.*s'", (int)made.n, (char *)made.at); break;
      case CHANGECAP_BLOB:
        n += (size_t)sprintf(text + n, " x");
        for(size_t i = 0; i < made.n; i++) n += (size_t)sprintf(text + n, "%02x", made.at[i]);
        break;
      default: n += (size_t)sprintf(text + n, " null");
    }
    free(made.at);
  }
  CHECK(changecap_column(rows, columns, &value) == CHANGECAP_MISUSE);
  CHECK(changecap_column_bytes(rows, columns, &none, 1, &len) == CHANGECAP_MISUSE && none == 0xaa);
  return !strcmp(text, wanted);
}

/* Whether the rows have these texts, each with a bar behind it. The rows are closed. */
static int all_are(changecap_rows *rows, const char *wanted){
  char one[256];
  int same = 1;
  reads_nothing(rows);
  while( *wanted ){
    size_t n = strcspn(wanted, "|");
    snprintf(one, sizeof one, "%.*s", (int)n, wanted);
    same = next_is(rows, one) && same;
    wanted += n + 1;
  }
  same = next_is(rows, "") && next_is(rows, "") && same;
  changecap_rows_close(rows);
  CHECK(rows->at == NULL);
  return same;
}

/* Whether a table has these rows now. They are read from a snapshot that is closed by then. */
static int holds(changecap_client *client, const char *name, const char *wanted){
  changecap_snapshot snapshot = CHANGECAP_CLOSED;
  changecap_rows rows = CHANGECAP_CLOSED;
  changecap_fault fault;
  CHECK(changecap_snapshot_open(client, &snapshot) == CHANGECAP_OK && snapshot.at != NULL);
  CHECK(scanned(&snapshot, name, &rows, &fault) == CHANGECAP_OK);
  changecap_snapshot_close(&snapshot);
  CHECK(snapshot.at == NULL);
  return all_are(&rows, wanted);
}

/* ---- Batches ---- */

static changecap_client opened(void){
  changecap_client client = CHANGECAP_CLOSED;
  CHECK(changecap_open(&client) == CHANGECAP_OK && client.at != NULL);
  return client;
}

static changecap_batch new_batch(void){
  changecap_batch batch = CHANGECAP_CLOSED;
  CHECK(changecap_batch_open(&batch) == CHANGECAP_OK && batch.at != NULL);
  return batch;
}

static void worked_batches(void){
  changecap_client client = opened();
  changecap_batch batch = new_batch();
  changecap_fault fault = { 77, 77 };
  uint64_t version = 77;
  CHECK(made_table(&client, "t", "10") == CHANGECAP_OK && made_table(&client, "u", "011") == CHANGECAP_OK);
  CHECK(inserted(&batch, "t", record("it", 1, "x"), 0, &fault) == CHANGECAP_OK);
  CHECK(inserted(&batch, "t", record("ib", 2, "00ff"), 1, &fault) == CHANGECAP_OK);
  CHECK(inserted(&batch, "u", record("tii", "x", 1, 2), 0, &fault) == CHANGECAP_OK);
  CHECK(inserted(&batch, "u", record("tni", "", 1), 0, &fault) == CHANGECAP_OK);
  CHECK(holds(&client, "t", ""));
  CHECK(changecap_commit(&client, &batch, &version, &fault) == CHANGECAP_OK && version == 3 && fault.kind == 77);
  CHECK(holds(&client, "t", "- 1 'x'|- 2 x00ff|") && holds(&client, "u", "- 'x' 1 2|1 '' null 1|"));
  CHECK(deleted(&batch, "t", record("i", 1), 0, 0, &fault) == CHANGECAP_OK);
  CHECK(changecap_commit(&client, &batch, &version, &fault) == CHANGECAP_OK && version == 4);
  CHECK(holds(&client, "t", "- 2 x00ff|"));
  CHECK(updated(&batch, "u", record("ii", 1, 2), 0, record("n"), 0, &fault) == CHANGECAP_OK);
  CHECK(updated(&batch, "u", no_bytes(), 1, record("ui", 7), 0, &fault) == CHANGECAP_OK);
  CHECK(changecap_commit(&client, &batch, &version, &fault) == CHANGECAP_OK && version == 5);
  CHECK(holds(&client, "u", "- null 1 2|- '' 7 1|"));
  CHECK(updated(&batch, "u", record("ii", 7, 1), 0, record("uuu"), 0, &fault) == CHANGECAP_OK);
  CHECK(changecap_commit(&client, &batch, &version, &fault) == CHANGECAP_OK && version == 6 && fault.kind == 77);
  CHECK(holds(&client, "u", "- null 1 2|- '' 7 1|"));
  changecap_batch_close(&batch);
  changecap_batch_close(&batch);
  CHECK(batch.at == NULL);
  changecap_close(&client);
}

/* A record with a fault is refused at its byte, and the batch is as it was. */
static void malformed_records(void){
  static const struct { const char *hex; uint32_t kind; size_t at; } wrong[] = {
    { "0100000000000000", CHANGECAP_TRUNCATED, 8 }, { "05030261", CHANGECAP_TRUNCATED, 4 },
    { "050380", CHANGECAP_BAD_VARINT, 2 }, { "0506", CHANGECAP_BAD_FIELD, 1 }, { "02", CHANGECAP_REAL, 0 },
    { "050301ff", CHANGECAP_BAD_TEXT, 1 },
  };
  changecap_client client = opened();
  changecap_batch batch = new_batch();
  changecap_fault fault = { 77, 77 };
  uint64_t version = 77;
  for(size_t i = 0; i < sizeof wrong / sizeof *wrong; i++){
    bytes digits = of_hex(wrong[i].hex, strlen(wrong[i].hex));
    CHECK(inserted(&batch, "t", copy_of(digits.at, digits.n), 0, &fault) == CHANGECAP_MALFORMED);
    CHECK(fault.kind == wrong[i].kind && fault.at == wrong[i].at);
    CHECK(updated(&batch, "t", record("i", 1), 0, copy_of(digits.at, digits.n), 0, &fault) == CHANGECAP_MALFORMED);
    CHECK(fault.kind == wrong[i].kind && fault.at == wrong[i].at);
    free(digits.at);
  }
  CHECK(inserted(&batch, "t", record("nu"), 0, &fault) == CHANGECAP_MALFORMED && fault.kind == 9 && fault.at == 1);
  CHECK(deleted(&batch, "t", record("in", 1), 0, 0, &fault) == CHANGECAP_MALFORMED && fault.kind == 9);
  CHECK(fault.at == 9);
  CHECK(changecap_commit(&client, &batch, &version, &fault) == CHANGECAP_OK && version == 1);
  changecap_batch_close(&batch);
  changecap_close(&client);
}

static void misused_batches(void){
  changecap_client client = opened();
  changecap_batch batch = new_batch();
  changecap_fault fault = { 77, 77 };
  uint64_t version = 77;
  CHECK(made_table(&client, "t", "10") == CHANGECAP_OK);
  CHECK(deleted(&batch, "t", no_bytes(), 0, 0, &fault) == CHANGECAP_MISUSE);
  CHECK(deleted(&batch, "t", record("i", 1), 1, 0, &fault) == CHANGECAP_MISUSE);
  CHECK(updated(&batch, "t", no_bytes(), 0, record("i", 1), 0, &fault) == CHANGECAP_MISUSE);
  CHECK(inserted(&batch, "", record("i", 1), 0, &fault) == CHANGECAP_MISUSE);
  CHECK(inserted(&batch, "\xff", record("i", 1), 0, &fault) == CHANGECAP_MISUSE);
  CHECK(inserted(&batch, "t", record("i", 1), 2, &fault) == CHANGECAP_MISUSE && fault.kind == 77);
  CHECK(changecap_insert(&batch, NULL, 0, NULL, 0, 0, &fault) == CHANGECAP_MISUSE);
  CHECK(changecap_update(&batch, NULL, 0, NULL, 0, 1, NULL, 0, 0, &fault) == CHANGECAP_MISUSE);
  CHECK(changecap_delete(&batch, NULL, 0, NULL, 0, 1, 0, &fault) == CHANGECAP_MISUSE);
  CHECK(changecap_delete(&batch, "t", 1, NULL, 0, 1, 0, &fault) == CHANGECAP_OK);
  changecap_batch_clear(&batch);
  CHECK(inserted(&batch, "t", record("ii", 1, 2), 0, &fault) == CHANGECAP_OK);
  CHECK(inserted(&batch, "t", record("i", 2), 0, &fault) == CHANGECAP_OK);
  for(int again = 0; again < 2; again++)
    CHECK(changecap_commit(&client, &batch, &version, &fault) == CHANGECAP_REFUSED && fault.kind == 3 && fault.at == 1);
  CHECK(version == 77 && holds(&client, "t", ""));
  changecap_batch_clear(&batch);
  CHECK(changecap_commit(&client, &batch, &version, &fault) == CHANGECAP_OK && version == 2 && holds(&client, "t", ""));
  changecap_batch_close(&batch);
  changecap_close(&client);
}

static void limited_batches(void){
  changecap_client client = opened();
  changecap_batch batch = CHANGECAP_CLOSED;
  changecap_snapshot snapshot = CHANGECAP_CLOSED;
  changecap_rows rows = CHANGECAP_CLOSED;
  changecap_fault fault = { 77, 77 };
  uint64_t version = 77;
  CHECK(made_table(&client, "t", "10") == CHANGECAP_OK);
  CHECK(changecap_batch_open_at(&batch, 2) == CHANGECAP_OK);
  CHECK(changecap_commit(&client, &batch, &version, &fault) == CHANGECAP_REFUSED && fault.kind == 11);
  changecap_batch_close(&batch);
  CHECK(changecap_batch_open_at(&batch, 1) == CHANGECAP_OK);
  for(int i = 0; i < 10000; i++)
    if( inserted(&batch, "t", record("ii", i, i), 0, &fault) != CHANGECAP_OK ) CHECK(0);
  CHECK(inserted(&batch, "t", record("ii", -1, 0), 0, &fault) == CHANGECAP_REFUSED && fault.kind == 10);
  CHECK(fault.at == 0);
  CHECK(changecap_commit(&client, &batch, &version, &fault) == CHANGECAP_OK && version == 2);
  CHECK(changecap_commit(&client, &batch, &version, &fault) == CHANGECAP_OK && version == 3);
  CHECK(changecap_snapshot_open(&client, &snapshot) == CHANGECAP_OK);
  CHECK(scanned(&snapshot, "t", &rows, &fault) == CHANGECAP_OK);
  size_t number = 0;
  while( changecap_step(&rows) == CHANGECAP_ROW ) number++;
  CHECK(number == 10000);
  changecap_rows_close(&rows);
  changecap_snapshot_close(&snapshot);
  changecap_batch_close(&batch);
  changecap_close(&client);
}

/* A cascade is an indirect touch. */
static void caused_batches(void){
  changecap_client client = opened();
  changecap_batch batch = new_batch();
  changecap_capture capture = CHANGECAP_CLOSED;
  changecap_fault fault;
  uint64_t version, session;
  uint8_t out[64];
  size_t len;
  CHECK(made_table(&client, "t", "10") == CHANGECAP_OK);
  CHECK(changecap_session_new(&client, &session, &fault) == CHANGECAP_OK);
  CHECK(changecap_session_attach_all(&client, session, &fault) == CHANGECAP_OK);
  CHECK(inserted(&batch, "t", record("it", 1, "x"), CHANGECAP_CASCADE, &fault) == CHANGECAP_OK);
  CHECK(changecap_commit(&client, &batch, &version, &fault) == CHANGECAP_OK);
  CHECK(changecap_session_capture(&client, session, &capture, &fault) == CHANGECAP_OK);
  CHECK(changecap_capture_changeset(&capture, 0, out, sizeof out, &len) == CHANGECAP_OK);
  CHECK(is_hex((bytes){ out, len }, "5402010074001201010000000000000001030178"));
  changecap_capture_close(&capture);
  changecap_batch_close(&batch);
  changecap_close(&client);
}

/* ---- Snapshots ---- */

/* A client with the rows (1,'x'), (2,'y') and (3,'z') of the table t, and one without a key of the table u. */
static changecap_client with_rows(void){
  changecap_client client = opened();
  changecap_batch batch = new_batch();
  changecap_fault fault;
  uint64_t version;
  CHECK(made_table(&client, "t", "10") == CHANGECAP_OK && made_table(&client, "u", "10") == CHANGECAP_OK);
  for(int i = 0; i < 3; i++)
    CHECK(inserted(&batch, "t", record("it", i + 1, (const char *[]){ "x", "y", "z" }[i]), 0, &fault) == CHANGECAP_OK);
  CHECK(inserted(&batch, "u", record("ni", 5), 0, &fault) == CHANGECAP_OK);
  CHECK(changecap_commit(&client, &batch, &version, &fault) == CHANGECAP_OK && version == 3);
  changecap_batch_close(&batch);
  return client;
}

static void worked_snapshots(void){
  changecap_client client = with_rows();
  changecap_batch batch = new_batch();
  changecap_snapshot snapshot = CHANGECAP_CLOSED;
  changecap_rows rows = CHANGECAP_CLOSED;
  changecap_fault fault = { 77, 77 };
  uint64_t version = 77;
  bytes key = record("i", 2);
  CHECK(changecap_snapshot_open(&client, &snapshot) == CHANGECAP_OK);
  CHECK(changecap_snapshot_version(&snapshot, &version) == CHANGECAP_OK && version == 3);
  CHECK(deleted(&batch, "t", record("i", 2), 0, 0, &fault) == CHANGECAP_OK);
  CHECK(changecap_commit(&client, &batch, &version, &fault) == CHANGECAP_OK && holds(&client, "t", "- 1 'x'|- 3 'z'|"));
  changecap_close(&client);
  CHECK(changecap_snapshot_version(&snapshot, &version) == CHANGECAP_OK && version == 3);
  CHECK(scanned(&snapshot, "t", &rows, &fault) == CHANGECAP_OK && all_are(&rows, "- 1 'x'|- 2 'y'|- 3 'z'|"));
  CHECK(got(&snapshot, "t", record("i", 2), 0, &rows, &fault) == CHANGECAP_OK && all_are(&rows, "- 2 'y'|"));
  CHECK(got(&snapshot, "t", record("i", 4), 0, &rows, &fault) == CHANGECAP_OK && all_are(&rows, ""));
  CHECK(got(&snapshot, "u", no_bytes(), 1, &rows, &fault) == CHANGECAP_OK && all_are(&rows, "1 null 5|"));
  CHECK(changecap_get(&snapshot, "u", 1, NULL, 0, 2, &rows, &fault) == CHANGECAP_OK && all_are(&rows, ""));
  CHECK(changecap_scan_from(&snapshot, "t", 1, key.at, key.n, 9, &rows, &fault) == CHANGECAP_OK);
  CHECK(all_are(&rows, "- 2 'y'|- 3 'z'|"));
  CHECK(changecap_scan_from(&snapshot, "t", 1, key.at, key.n, 1, &rows, &fault) == CHANGECAP_OK);
  CHECK(next_is(&rows, "- 2 'y'"));
  is_recorded(&rows, 2);
  CHECK(next_is(&rows, ""));
  changecap_rows_close(&rows);
  changecap_rows_close(&rows);
  CHECK(changecap_scan_from(&snapshot, "t", 1, key.at, key.n, 0, &rows, &fault) == CHANGECAP_OK && all_are(&rows, ""));
  CHECK(fault.kind == 77);
  CHECK(got(&snapshot, "t", no_bytes(), 0, &rows, &fault) == CHANGECAP_MISUSE);
  CHECK(got(&snapshot, "t", record("i", 1), 1, &rows, &fault) == CHANGECAP_MISUSE);
  CHECK(got(&snapshot, "", record("i", 1), 0, &rows, &fault) == CHANGECAP_MISUSE && fault.kind == 77);
  CHECK(changecap_scan(&snapshot, NULL, 0, &rows, &fault) == CHANGECAP_MISUSE && rows.at == NULL);
  CHECK(got(&snapshot, "t", record("n"), 0, &rows, &fault) == CHANGECAP_MALFORMED && fault.kind == 9 && fault.at == 0);
  CHECK(got(&snapshot, "v", record("i", 1), 0, &rows, &fault) == CHANGECAP_REFUSED && fault.kind == 8 && fault.at == 0);
  CHECK(scanned(&snapshot, "v", &rows, &fault) == CHANGECAP_REFUSED && fault.kind == 8);
  CHECK(changecap_scan_from(&snapshot, "v", 1, key.at, key.n, 9, &rows, &fault) == CHANGECAP_REFUSED);
  free(key.at);
  changecap_snapshot_close(&snapshot);
  changecap_snapshot_close(&snapshot);
  changecap_batch_close(&batch);
}

/* ---- Transactions ---- */

static changecap_transaction begun(changecap_client *client){
  changecap_snapshot snapshot = CHANGECAP_CLOSED;
  changecap_transaction transaction = CHANGECAP_CLOSED;
  CHECK(changecap_snapshot_open(client, &snapshot) == CHANGECAP_OK);
  CHECK(changecap_begin(&snapshot, &transaction) == CHANGECAP_OK && transaction.at != NULL);
  changecap_snapshot_close(&snapshot);
  return transaction;
}

/* Whether a transaction reads these rows of the table t. */
static int reads(changecap_transaction *transaction, const char *wanted){
  changecap_rows rows = CHANGECAP_CLOSED;
  changecap_fault fault;
  CHECK(changecap_transaction_scan(transaction, "t", 1, &rows, &fault) == CHANGECAP_OK);
  return all_are(&rows, wanted);
}

static void worked_transactions(void){
  changecap_client client = with_rows();
  changecap_transaction transaction = begun(&client);
  changecap_batch batch = CHANGECAP_CLOSED;
  changecap_rows rows = CHANGECAP_CLOSED;
  changecap_fault fault = { 77, 77 };
  uint64_t first = 77, second = 77, version = 77;
  bytes one = record("i", 1), four = record("it", 4, "new"), set = record("ut", "old");
  CHECK(changecap_transaction_get(&transaction, "t", 1, one.at, one.n, 0, &rows, &fault) == CHANGECAP_OK);
  CHECK(all_are(&rows, "- 1 'x'|"));
  CHECK(changecap_transaction_insert(&transaction, "t", 1, four.at, four.n, 0, &fault) == CHANGECAP_OK);
  CHECK(changecap_savepoint(&transaction, &first, &fault) == CHANGECAP_OK);
  CHECK(changecap_transaction_update(&transaction, "t", 1, one.at, one.n, 0, set.at, set.n, 0, &fault) == CHANGECAP_OK);
  CHECK(changecap_savepoint(&transaction, &second, &fault) == CHANGECAP_OK && second != first);
  CHECK(changecap_transaction_delete(&transaction, "t", 1, one.at, one.n, 0, 0, &fault) == CHANGECAP_OK);
  CHECK(reads(&transaction, "- 2 'y'|- 3 'z'|- 4 'new'|"));
  CHECK(changecap_rollback_to(&transaction, second, &fault) == CHANGECAP_OK);
  CHECK(reads(&transaction, "- 1 'old'|- 2 'y'|- 3 'z'|- 4 'new'|"));
  CHECK(changecap_rollback_to(&transaction, first, &fault) == CHANGECAP_OK && fault.kind == 77);
  CHECK(changecap_rollback_to(&transaction, second, &fault) == CHANGECAP_REFUSED && fault.kind == 20);
  CHECK(reads(&transaction, "- 1 'x'|- 2 'y'|- 3 'z'|- 4 'new'|"));
  CHECK(changecap_transaction_insert(&transaction, "t", 1, four.at, four.n, 0, &fault) == CHANGECAP_REFUSED);
  CHECK(changecap_transaction_insert(&transaction, "t", 1, four.at, four.n, 9, &fault) == CHANGECAP_MISUSE);
  CHECK(changecap_transaction_insert(&transaction, "v", 1, four.at, four.n, 0, &fault) == CHANGECAP_REFUSED);
  CHECK(fault.kind == 8);
  CHECK(changecap_transaction_get(&transaction, "t", 1, NULL, 0, 0, &rows, &fault) == CHANGECAP_MISUSE);
  CHECK(changecap_end(&transaction, &batch) == CHANGECAP_OK && transaction.at == NULL && batch.at != NULL);
  CHECK(holds(&client, "t", "- 1 'x'|- 2 'y'|- 3 'z'|"));
  CHECK(changecap_commit(&client, &batch, &version, &fault) == CHANGECAP_OK && version == 4);
  CHECK(holds(&client, "t", "- 1 'x'|- 2 'y'|- 3 'z'|- 4 'new'|"));
  changecap_batch_close(&batch);
  transaction = begun(&client);
  CHECK(changecap_transaction_delete(&transaction, "t", 1, one.at, one.n, 0, 0, &fault) == CHANGECAP_OK);
  changecap_rollback(&transaction);
  changecap_rollback(&transaction);
  CHECK(transaction.at == NULL && holds(&client, "t", "- 1 'x'|- 2 'y'|- 3 'z'|- 4 'new'|"));
  free(one.at);
  free(four.at);
  free(set.at);
  changecap_close(&client);
}

/* Whether an item of a batch is this one, of the table t. */
static int item_is(changecap_batch *batch, size_t at, uint32_t kind, bytes key){
  changecap_item item = { 77, 77 };
  uint8_t name[8], content[32];
  size_t n = 99, len = 99;
  int same = changecap_batch_item(batch, at, &item) == CHANGECAP_OK && item.kind == kind && item.id == 0;
  same = changecap_batch_item_table(batch, at, name, sizeof name, &n) == CHANGECAP_OK && n == 1 && *name == 't' && same;
  CHECK(changecap_batch_item_table(batch, at, NULL, 0, &n) == CHANGECAP_ROOM && n == 1);
  same = changecap_batch_item_key(batch, at, content, sizeof content, &len) == CHANGECAP_OK && len == key.n
      && (len == 0 || !memcmp(content, key.at, len)) && same;
  CHECK(changecap_batch_item_key(batch, at, NULL, 0, &len) == (key.n ? CHANGECAP_ROOM : CHANGECAP_OK) && len == key.n);
  free(key.at);
  return same;
}

/* A transaction is refused where a row that it looked at has changed, and not where another one has. */
static void overlapping_transactions(void){
  changecap_client client = with_rows(), other = CHANGECAP_CLOSED;
  changecap_batch batch = CHANGECAP_CLOSED, change = new_batch();
  changecap_rows rows = CHANGECAP_CLOSED;
  changecap_item item = { 77, 77 };
  changecap_fault fault = { 77, 77 };
  uint64_t version;
  bytes one = record("i", 1), set = record("ut", "new");
  CHECK(changecap_join(&other, &client) == CHANGECAP_OK);
  for(int key = 1; key <= 2; key++){
    changecap_transaction transaction = begun(&client);
    CHECK(changecap_transaction_get(&transaction, "t", 1, one.at, one.n, 0, &rows, &fault) == CHANGECAP_OK);
    changecap_rows_close(&rows);
    CHECK(changecap_transaction_update(&transaction, "t", 1, one.at, one.n, 0, set.at, set.n, 0, &fault)
          == CHANGECAP_OK);
    CHECK(changecap_end(&transaction, &batch) == CHANGECAP_OK);
    CHECK(updated(&change, "t", record("i", key), 0, record("ui", key), 0, &fault) == CHANGECAP_OK);
    CHECK(changecap_commit(&other, &change, &version, &fault) == CHANGECAP_OK);
    uint32_t status = changecap_commit(&client, &batch, &version, &fault);
    if( key == 1 ){
      CHECK(status == CHANGECAP_REFUSED && fault.kind == 11 && fault.at == 1);
      CHECK(item_is(&batch, 0, CHANGECAP_ITEM_TABLE, no_bytes()));
      CHECK(item_is(&batch, 1, CHANGECAP_ITEM_ROW, record("i", 1)));
      CHECK(changecap_batch_item(&batch, 2, &item) == CHANGECAP_MISUSE && item.kind == 77);
    }else{
      CHECK(status == CHANGECAP_OK);
    }
    changecap_batch_close(&batch);
  }
  CHECK(holds(&client, "t", "- 1 'new'|- 2 2|- 3 'z'|"));
  free(one.at);
  free(set.at);
  changecap_batch_close(&change);
  changecap_close(&client);
  changecap_close(&other);
}

/* ---- Refused memory ---- */

/* Each request for memory is refused in turn: a call that did nothing does it when it is made again. */
static void refused_batches(void){
  for(long at = 0, granted = 0; !granted; at++){
    changecap_client client = opened();
    changecap_batch batch = CHANGECAP_CLOSED;
    changecap_snapshot snapshot = CHANGECAP_CLOSED;
    changecap_transaction transaction = CHANGECAP_CLOSED;
    changecap_rows rows = CHANGECAP_CLOSED;
    changecap_fault fault;
    uint64_t version = 0, mark;
    uint32_t status;
    bytes key = record("it", 1, "key"), row = record("itni", 2, "other", 5);
    CHECK(made_table(&client, "t", "1100") == CHANGECAP_OK);
    refuse_behind(at);
    granted = 1;
#define SUCCEEDS(call) AGAIN(call); CHECK(status == CHANGECAP_OK)
    SUCCEEDS(changecap_batch_open(&batch));
    SUCCEEDS(inserted(&batch, "t", record("itni", 1, "key", -5), 0, &fault));
    SUCCEEDS(updated(&batch, "t", record("it", 1, "key"), 0, record("uut", "new"), 0, &fault));
    SUCCEEDS(changecap_commit(&client, &batch, &version, &fault));
    CHECK(version == 2);
    SUCCEEDS(changecap_snapshot_open(&client, &snapshot));
    SUCCEEDS(got(&snapshot, "t", record("it", 1, "key"), 0, &rows, &fault));
    CHECK(all_are(&rows, "- 1 'key' 'new' -5|"));
    SUCCEEDS(changecap_scan_from(&snapshot, "t", 1, key.at, key.n, 5, &rows, &fault));
    CHECK(all_are(&rows, "- 1 'key' 'new' -5|"));
    SUCCEEDS(changecap_begin(&snapshot, &transaction));
    changecap_snapshot_close(&snapshot);
    SUCCEEDS(changecap_savepoint(&transaction, &mark, &fault));
    SUCCEEDS(changecap_transaction_delete(&transaction, "t", 1, key.at, key.n, 0, 0, &fault));
    SUCCEEDS(changecap_rollback_to(&transaction, mark, &fault));
    SUCCEEDS(changecap_transaction_insert(&transaction, "t", 1, row.at, row.n, 0, &fault));
    SUCCEEDS(changecap_transaction_scan(&transaction, "t", 1, &rows, &fault));
    CHECK(all_are(&rows, "- 1 'key' 'new' -5|- 2 'other' null 5|"));
    changecap_batch_close(&batch);
    SUCCEEDS(changecap_end(&transaction, &batch));
    SUCCEEDS(changecap_commit(&client, &batch, &version, &fault));
    CHECK(version == 3);
#undef SUCCEEDS
    granted = none_refused() && granted;
    CHECK(holds(&client, "t", "- 1 'key' 'new' -5|- 2 'other' null 5|"));
    free(key.at);
    free(row.at);
    changecap_batch_close(&batch);
    changecap_close(&client);
  }
}

void test_batches(void){
  worked_batches();
  malformed_records();
  misused_batches();
  limited_batches();
  caused_batches();
  worked_snapshots();
  worked_transactions();
  overlapping_transactions();
  refused_batches();
}
