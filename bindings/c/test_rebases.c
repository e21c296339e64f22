/*
 * Tests of the calls of changecap.h by which a changeset is rebased: over buffers of applications by the library, and
 * of applications elsewhere.
 */
#include "testing.h"

/* ---- Changesets ---- */

/* Changesets as digits, beside those of testing.h. */
#define INSERT_Y "5402010074001200010000000000000001030179"
#define UPDATE_Z "54020100740017000100000000000000010301780003017a"
#define Y_TO_Z "54020100740017000100000000000000010301790003017a"
#define DELETE_Y "5402010074000900010000000000000001030179"

static bytes blob_of(const char *hex){
  return of_hex(hex, strlen(hex));
}

/* An open iterator before the first change of a blob. */
static changecap_iter opened(const char *hex){
  bytes blob = blob_of(hex);
  changecap_iter it = CHANGECAP_CLOSED;
  changecap_fault fault;
  CHECK(changecap_iter_open(blob.at, blob.n, &it, &fault) == CHANGECAP_OK);
  free(blob.at);
  return it;
}

/* The buffer that an iterator has: first the call reports the length, then it gets a buffer that is just as long. */
static bytes buffer_of(changecap_iter *it, uint32_t key_flags){
  size_t len = 99;
  bytes made = { NULL, 0 };
  uint32_t status = changecap_iter_buffer(it, key_flags, NULL, 0, &len);
  CHECK(status == (len ? CHANGECAP_ROOM : CHANGECAP_OK));
  made.n = len;
  made.at = __real_malloc(len + 1);
  made.at[0] = made.at[len] = 0xaa;
  if( len ) CHECK(changecap_iter_buffer(it, key_flags, made.at, len - 1, &len) == CHANGECAP_ROOM);
  CHECK(len == made.n && made.at[0] == 0xaa);
  CHECK(changecap_iter_buffer(it, key_flags, made.at, made.n, &len) == CHANGECAP_OK && len == made.n);
  CHECK(made.at[len] == 0xaa);
  return made;
}

/* The buffer of a changeset of which each change met a conflict elsewhere, with this answer. */
static bytes answered(const char *hex, uint32_t answer){
  changecap_iter it = opened(hex);
  while( changecap_iter_next(&it) == CHANGECAP_ROW ) CHECK(changecap_iter_answer(&it, answer) == CHANGECAP_OK);
  bytes buffer = buffer_of(&it, CHANGECAP_KEYS_PLACES);
  changecap_iter_close(&it);
  return buffer;
}

/* ---- Rebased changesets ---- */

/* A changeset over buffers, in the way of buffer_of. */
static bytes rebased(bytes changeset, bytes buffers, uint32_t key_flags){
  changecap_fault fault = { 77, 77 };
  size_t len = 99, blob = 77;
  uint8_t none = 0xaa;
  uint32_t status = changecap_rebase(changeset.at, changeset.n, buffers.at, buffers.n, key_flags, &none, 0, &len, &fault,
                                     &blob);
  CHECK(status == (len ? CHANGECAP_ROOM : CHANGECAP_OK) && none == 0xaa);
  bytes made = { __real_malloc(len + 1), len };
  made.at[len] = 0xaa;
  status = changecap_rebase(changeset.at, changeset.n, buffers.at, buffers.n, key_flags, made.at, made.n, &len, &fault,
                            &blob);
  CHECK(status == CHANGECAP_OK && len == made.n && made.at[len] == 0xaa);
  CHECK(fault.kind == 77 && fault.at == 77 && blob == 77);
  return made;
}

static void rebased_is(const char *local, const char *remote, uint32_t answer, const char *wanted){
  bytes changeset = blob_of(local), buffer = answered(remote, answer);
  bytes made = rebased(changeset, buffer, CHANGECAP_KEYS_PLACES);
  CHECK(is_hex(made, wanted));
  free(changeset.at);
  free(buffer.at);
  free(made.at);
}

/* The first row is (1,'a','b'). One copy sets the first value to 'x', the other one the values to 'y' and 'z'. */
#define WIDE "54030100007400"
#define FIRST WIDE "170001000000000000000103016100" "0003017800"
#define BOTH WIDE "1700010000000000000001030161030162" "0003017903017a"

static void worked_rebases(void){
  const uint32_t omit = CHANGECAP_OMIT, replace = CHANGECAP_REPLACE;
  rebased_is(INSERT_Y, INSERT, omit, UPDATE);
  rebased_is(INSERT, INSERT, omit, "");
  rebased_is(INSERT_Y, INSERT, replace, "");
  rebased_is(UPDATE_Z, UPDATE, omit, Y_TO_Z);
  rebased_is(UPDATE, UPDATE, omit, "");
  rebased_is(UPDATE_Z, UPDATE, replace, "");
  rebased_is(UPDATE, DELETE, omit, INSERT_Y);
  rebased_is(UPDATE, DELETE, replace, "");
  rebased_is(DELETE, UPDATE, omit, DELETE_Y);
  rebased_is(DELETE, DELETE, omit, "");
  rebased_is(FIRST, BOTH, omit, WIDE "170001000000000000000103017903017a" "00030178030162");
  rebased_is(FIRST, BOTH, replace, "");
  rebased_is(BOTH, FIRST, replace, WIDE "170001000000000000000100030162" "000003017a");
  rebased_is(OTHER_TABLE INSERT_Y, INSERT, omit, OTHER_TABLE UPDATE);
  rebased_is(UPDATE_Z, "", omit, UPDATE_Z);
  rebased_is("", INSERT, omit, "");
}

/* Several buffers, one after the other, and both forms of key flags. */
static void several_buffers(void){
  bytes first = answered(DELETE, CHANGECAP_OMIT), second = answered(INSERT_Y, CHANGECAP_OMIT);
  bytes both = { __real_malloc(first.n + second.n), first.n + second.n }, local = blob_of(UPDATE_Z);
  memcpy(both.at, first.at, first.n);
  memcpy(both.at + first.n, second.at, second.n);
  bytes made = rebased(local, both, CHANGECAP_KEYS_ONES);
  CHECK(is_hex(made, Y_TO_Z));
  free(made.at);
  free(local.at);
  local = blob_of(TWO_KEYS);
  made = rebased(local, (bytes){ first.at, 0 }, CHANGECAP_KEYS_PLACES);
  CHECK(is_hex(made, "540300010274001200030178010000000000000002010000000000000001"));
  free(made.at);
  made = rebased(local, (bytes){ first.at, 0 }, CHANGECAP_KEYS_ONES);
  CHECK(is_hex(made, TWO_KEYS));
  free(made.at);
  free(local.at);
  free(first.at);
  free(second.at);
  free(both.at);
}

/* They make none, for this reason, by the blob of this number. Nothing else is written. */
static void rebase_is_refused(const char *local, const char *buffers, uint32_t wanted, size_t by, changecap_fault of){
  bytes changeset = blob_of(local), remote = blob_of(buffers);
  changecap_fault fault = { 77, 77 };
  size_t blob = 77, len = 99;
  uint8_t out[64] = { 0xaa };
  CHECK(changecap_rebase(changeset.at, changeset.n, remote.at, remote.n, 0, out, sizeof out, &len, &fault, &blob)
        == wanted);
  CHECK(blob == by && fault.kind == of.kind && fault.at == of.at && len == 99 && out[0] == 0xaa);
  free(changeset.at);
  free(remote.at);
}

static void refused_rebases(void){
  const changecap_fault none = { 77, 77 }, varint = { CHANGECAP_BAD_VARINT, 1 };
  rebase_is_refused("5480", INSERT, CHANGECAP_MALFORMED, 0, varint);
  rebase_is_refused(INSERT, "5480", CHANGECAP_MALFORMED, 1, varint);
  rebase_is_refused(PATCH, INSERT, CHANGECAP_PATCHSET, 0, none);
  rebase_is_refused(INSERT, PATCH, CHANGECAP_PATCHSET, 1, none);
  rebase_is_refused(TWO_KEYS, INSERT, CHANGECAP_COLUMNS, 0, none);
  bytes blob = blob_of(INSERT);
  changecap_fault fault = { 77, 77 };
  size_t len = 99, by = 77;
  uint8_t out[64] = { 0xaa };
  CHECK(changecap_rebase(blob.at, blob.n, blob.at, blob.n, 2, out, sizeof out, &len, &fault, &by) == CHANGECAP_MISUSE);
  CHECK(changecap_rebase(NULL, 0, NULL, 0, 1, NULL, 0, &len, &fault, &by) == CHANGECAP_OK && len == 0);
  CHECK(changecap_rebase(blob.at, blob.n, NULL, 0, 1, NULL, 0, &len, &fault, &by) == CHANGECAP_ROOM && len == blob.n);
  CHECK(out[0] == 0xaa && by == 77 && fault.kind == 77);
  free(blob.at);
}

/* Each request for memory is refused in turn. The call reports it and writes nothing. */
static void rebase_without_memory(void){
  bytes local = blob_of(OTHER_TABLE UPDATE_Z), buffer = answered(UPDATE, CHANGECAP_OMIT);
  for(long at = 0, granted = 0; !granted; at++){
    changecap_fault fault = { 77, 77 };
    size_t len = 99, blob = 77;
    uint8_t out[64] = { 0xaa };
    refuse_behind(at);
    uint32_t status = changecap_rebase(local.at, local.n, buffer.at, buffer.n, 1, out, sizeof out, &len, &fault, &blob);
    granted = none_refused();
    CHECK(fault.kind == 77 && fault.at == 77 && blob == 77);
    if( status == CHANGECAP_NOMEM ) CHECK(!granted && len == 99 && out[0] == 0xaa);
    else CHECK(status == CHANGECAP_OK && is_hex((bytes){ out, len }, OTHER_TABLE Y_TO_Z));
  }
  free(local.at);
  free(buffer.at);
}

/* ---- Buffers of applications elsewhere ---- */

static void worked_answers(void){
  changecap_iter it = opened(INSERT OTHER_TABLE "0900010000000000000003" "05");
  CHECK(changecap_iter_answer(&it, CHANGECAP_OMIT) == CHANGECAP_MISUSE);
  bytes buffer = buffer_of(&it, CHANGECAP_KEYS_PLACES);
  CHECK(buffer.n == 0);
  free(buffer.at);
  CHECK(changecap_iter_next(&it) == CHANGECAP_ROW);
  CHECK(changecap_iter_answer(&it, 3) == CHANGECAP_MISUSE);
  CHECK(changecap_iter_answer(&it, CHANGECAP_REPLACE) == CHANGECAP_OK);
  CHECK(changecap_iter_next(&it) == CHANGECAP_ROW && changecap_iter_next(&it) == CHANGECAP_ROW);
  CHECK(changecap_iter_answer(&it, CHANGECAP_OMIT) == CHANGECAP_OK);
  CHECK(changecap_iter_next(&it) == CHANGECAP_DONE);
  CHECK(changecap_iter_answer(&it, CHANGECAP_OMIT) == CHANGECAP_MISUSE);
  buffer = buffer_of(&it, CHANGECAP_KEYS_PLACES);
  CHECK(is_hex(buffer, "5402010074001201010000000000000001030178" "540201007500" "090001000000000000000305"));
  free(buffer.at);
  size_t len = 99;
  uint8_t out[64] = { 0xaa };
  CHECK(changecap_iter_buffer(&it, 2, out, sizeof out, &len) == CHANGECAP_MISUSE && out[0] == 0xaa);
  changecap_iter_close(&it);
  it = opened(PATCH);
  CHECK(changecap_iter_buffer(&it, 1, out, sizeof out, &len) == CHANGECAP_PATCHSET && out[0] == 0xaa);
  changecap_iter_close(&it);
}

/* An answer without memory is given again, and so is a buffer asked for. */
static void answers_without_memory(void){
  for(long at = 0, granted = 0; !granted; at++){
    changecap_iter it = opened(INSERT OTHER_TABLE);
    uint32_t status;
    uint8_t out[64];
    size_t len = 99;
    refuse_behind(at);
    granted = 1;
    while( changecap_iter_next(&it) == CHANGECAP_ROW ) AGAIN(changecap_iter_answer(&it, CHANGECAP_OMIT));
    AGAIN(changecap_iter_buffer(&it, CHANGECAP_KEYS_PLACES, out, sizeof out, &len));
    granted = none_refused() && granted;
    CHECK(status == CHANGECAP_OK && is_hex((bytes){ out, len }, INSERT OTHER_TABLE));
    changecap_iter_close(&it);
  }
}

/* ---- Applications by the library ---- */

/* A client of a history with the table t, whose key is its first column, that has applied a changeset. */
static changecap_client copy_with(const char *hex){
  changecap_client client = CHANGECAP_CLOSED;
  changecap_fault fault;
  changecap_report report;
  uint64_t version;
  bytes blob = blob_of(hex);
  CHECK(changecap_open(&client) == CHANGECAP_OK);
  CHECK(changecap_create(&client, "t", 1, "\1\0", 2, &version, &fault) == CHANGECAP_OK);
  CHECK(changecap_apply(&client, blob.at, blob.n, 2, 2, 2, &report, &fault) == CHANGECAP_OK);
  free(blob.at);
  return client;
}

/* The value of the row with the key 1, or 0 where there is none. */
static int value_of(changecap_client *client){
  changecap_snapshot snapshot = CHANGECAP_CLOSED;
  changecap_rows rows = CHANGECAP_CLOSED;
  changecap_fault fault;
  uint8_t key[CHANGECAP_FIELD_MAX(0)], value = 0;
  size_t len;
  CHECK(changecap_snapshot_open(client, &snapshot) == CHANGECAP_OK);
  CHECK(changecap_get(&snapshot, "t", 1, key, changecap_put_int(key, 1), 0, &rows, &fault) == CHANGECAP_OK);
  if( changecap_step(&rows) == CHANGECAP_ROW ) CHECK(changecap_column_bytes(&rows, 1, &value, 1, &len) == CHANGECAP_OK);
  changecap_rows_close(&rows);
  changecap_snapshot_close(&snapshot);
  return value;
}

/* The iterator stays where it stands, and has the buffer of the last application. */
static void worked_applications(void){
  changecap_client client = copy_with(INSERT_Y);
  changecap_iter it = opened(OTHER_TABLE INSERT DELETE);
  changecap_fault fault = { 77, 77 };
  changecap_report report = { 0, 0, 0, 0, 0 };
  changecap_change change;
  CHECK(changecap_iter_next(&it) == CHANGECAP_ROW && changecap_iter_next(&it) == CHANGECAP_ROW);
  CHECK(changecap_apply_iter(&client, &it, 0, 0, 3, &report, &fault) == CHANGECAP_MISUSE && fault.kind == 77);
  CHECK(changecap_apply_iter(&client, &it, 0, 0, 2, &report, &fault) == CHANGECAP_REFUSED);
  CHECK(fault.kind == 15 && fault.at == 1 && value_of(&client) == 'y');
  CHECK(changecap_apply_iter(&client, &it, 0, 0, 0, &report, &fault) == CHANGECAP_OK);
  CHECK(report.conflicts == 2 && report.omitted == 2 && report.skipped == 1 && value_of(&client) == 'y');
  bytes buffer = buffer_of(&it, CHANGECAP_KEYS_PLACES);
  CHECK(is_hex(buffer, INSERT "0900010000000000000001030178") || is_hex(buffer, INSERT DELETE));
  free(buffer.at);
  CHECK(changecap_iter_op(&it, &change) == CHANGECAP_OK && change.op == CHANGECAP_INSERT);
  CHECK(changecap_apply_iter(&client, &it, 0, 0, 1, &report, &fault) == CHANGECAP_OK);
  CHECK(report.conflicts == 1 && report.omitted == 0 && value_of(&client) == 0);
  buffer = buffer_of(&it, CHANGECAP_KEYS_PLACES);
  CHECK(is_hex(buffer, "5402010074001201010000000000000001030178"));
  free(buffer.at);
  CHECK(changecap_iter_next(&it) == CHANGECAP_ROW && changecap_iter_next(&it) == CHANGECAP_DONE);
  changecap_iter_close(&it);
  changecap_close(&client);
}

/* A client and a hub have the same row, whatever the answer is, with each request for memory refused in turn. */
static void one_synchronisation(uint32_t answer, int wanted){
  for(long at = 0, granted = 0; !granted; at++){
    changecap_client client = copy_with(INSERT_Y), hub = copy_with(INSERT);
    changecap_iter it = opened(INSERT);
    changecap_fault fault;
    changecap_report report;
    uint32_t status;
    bytes local = blob_of(INSERT_Y);
    uint8_t buffer[32], out[64];
    size_t n = 99, len = 99, blob;
    refuse_behind(at);
    granted = 1;
    AGAIN(changecap_apply_iter(&client, &it, answer, 0, answer, &report, &fault));
    CHECK(status == CHANGECAP_OK && report.conflicts == 1);
    AGAIN(changecap_iter_buffer(&it, CHANGECAP_KEYS_PLACES, buffer, sizeof buffer, &n));
    AGAIN(changecap_rebase(local.at, local.n, buffer, n, CHANGECAP_KEYS_PLACES, out, sizeof out, &len, &fault, &blob));
    CHECK(status == CHANGECAP_OK);
    AGAIN(changecap_apply(&hub, out, len, 2, 2, 2, &report, &fault));
    granted = none_refused() && granted;
    CHECK(status == CHANGECAP_OK && value_of(&hub) == wanted && value_of(&client) == wanted);
    changecap_iter_close(&it);
    changecap_close(&client);
    changecap_close(&hub);
    free(local.at);
  }
}

void test_rebases(void){
  worked_rebases();
  several_buffers();
  refused_rebases();
  rebase_without_memory();
  worked_answers();
  answers_without_memory();
  worked_applications();
  one_synchronisation(CHANGECAP_OMIT, 'y');
  one_synchronisation(CHANGECAP_REPLACE, 'x');
}
