/*
 * Tests of the calls of changecap.h on applications that stop at each conflict.
 */
#include "testing.h"

/* A patchset's group that inserts (5) into the table u, which is not there. */
#define OTHER_PATCH "50010175001200010000000000000005"

static uint32_t command(changecap_client *of, const char *text){
  changecap_fault fault;
  return changecap_call(of, text, strlen(text), &fault);
}

/* Whether a command has this reply. */
static int replies(changecap_client *of, const char *text, const char *reply){
  uint8_t out[256];
  size_t n = 0;
  command(of, text);
  return changecap_reply(of, out, sizeof out, &n) == CHANGECAP_OK && n == strlen(reply) && memcmp(out, reply, n) == 0;
}

/* A client of a history with these rows in the table t, whose first column is its key. */
static void open_with(changecap_client *client, const char *inserts){
  CHECK(changecap_open(client) == CHANGECAP_OK);
  CHECK(command(client, "create t kv") == CHANGECAP_OK);
  CHECK(command(client, inserts) == CHANGECAP_OK);
}

/* The application of a blob to the tables as they are. What it is given is freed. */
static uint32_t begun(changecap_client *client, const char *hex, const char *filter, changecap_application *it,
                      changecap_fault *fault){
  changecap_snapshot snapshot = CHANGECAP_CLOSED;
  bytes blob = of_hex(hex, strlen(hex)), text = copy_of((const uint8_t *)filter, strlen(filter));
  uint32_t status;
  while( (status = changecap_snapshot_open(client, &snapshot)) == CHANGECAP_NOMEM ){}
  status = changecap_apply_open(&snapshot, blob.at, blob.n, text.at, text.n, it, fault);
  CHECK((it->at != NULL) == (status == CHANGECAP_OK));
  changecap_snapshot_close(&snapshot);
  free(blob.at);
  free(text.at);
  return status;
}

/* Whether what is read of one side is this record, which is freed; or nothing. */
static int is_side(uint32_t (*side)(changecap_application *, void *, size_t, size_t *), changecap_application *it,
                   bytes wanted){
  uint8_t out[64];
  size_t n = 99;
  uint32_t room = side(it, out, wanted.n - 1, &n), status = side(it, out, sizeof out, &n);
  int is_right = room == CHANGECAP_ROOM && status == CHANGECAP_OK && n == wanted.n && memcmp(out, wanted.at, n) == 0;
  free(wanted.at);
  return is_right;
}

/* Whether an application stands at no conflict, and each call that asks for one is misuse. */
static int stands_nowhere(changecap_application *it){
  uint32_t kind = 7;
  uint64_t number = 7;
  size_t len = 7;
  changecap_change change;
  changecap_fault fault = { 7, 7 };
  uint8_t out[64];
  return changecap_apply_kind(it, &kind) == CHANGECAP_MISUSE &&
         changecap_apply_number(it, &number) == CHANGECAP_MISUSE &&
         changecap_apply_op(it, &change) == CHANGECAP_MISUSE &&
         changecap_apply_table(it, out, 64, &len) == CHANGECAP_MISUSE &&
         changecap_apply_old(it, out, 64, &len) == CHANGECAP_MISUSE &&
         changecap_apply_new(it, out, 64, &len) == CHANGECAP_MISUSE &&
         changecap_apply_present(it, out, 64, &len) == CHANGECAP_MISUSE &&
         changecap_apply_answer(it, CHANGECAP_OMIT, &fault) == CHANGECAP_MISUSE &&
         changecap_apply_answer_row(it, out, 0, &fault) == CHANGECAP_MISUSE && kind == 7 && number == 7 && len == 7 &&
         fault.kind == 7;
}

/* ---- What is shown, and each answer ---- */

static void shown(void){
  changecap_client client = CHANGECAP_CLOSED;
  changecap_application it = CHANGECAP_CLOSED;
  changecap_change change;
  changecap_report report;
  changecap_fault fault = { 7, 7 };
  uint32_t kind;
  uint64_t number;
  uint8_t name[8];
  size_t n;
  open_with(&client, "commit insert t (1,'a')");
  CHECK(begun(&client, UPDATE, "", &it, &fault) == CHANGECAP_OK);
  CHECK(changecap_apply_step(&it) == CHANGECAP_ROW);
  CHECK(changecap_apply_step(&it) == CHANGECAP_ROW);
  CHECK(changecap_apply_kind(&it, &kind) == CHANGECAP_OK && kind == CHANGECAP_DATA);
  CHECK(changecap_apply_number(&it, &number) == CHANGECAP_OK && number == 0);
  CHECK(changecap_apply_op(&it, &change) == CHANGECAP_OK);
  CHECK(change.op == CHANGECAP_UPDATE && !change.indirect && !change.patchset && change.columns == 2);
  CHECK(changecap_apply_table(&it, name, sizeof name, &n) == CHANGECAP_OK && n == 1 && name[0] == 't');
  CHECK(is_side(changecap_apply_old, &it, record("it", 1, "x")));
  CHECK(is_side(changecap_apply_new, &it, record("ut", "y")));
  CHECK(is_side(changecap_apply_present, &it, record("it", 1, "a")));
  CHECK(changecap_apply_report(&it, &report) == CHANGECAP_OK && report.version == 2 && report.conflicts == 0);
  CHECK(changecap_apply_answer(&it, 3, &fault) == CHANGECAP_MISUSE);
  CHECK(changecap_apply_finish(&client, &it, &report, &fault) == CHANGECAP_MISUSE);
  CHECK(changecap_apply_answer(&it, CHANGECAP_REPLACE, &fault) == CHANGECAP_OK && fault.kind == 7);
  CHECK(changecap_apply_step(&it) == CHANGECAP_DONE && stands_nowhere(&it));
  CHECK(replies(&client, "get t key(1)", "row (1,'a')"));
  CHECK(changecap_apply_finish(&client, &it, &report, &fault) == CHANGECAP_OK);
  CHECK(report.version == 3 && report.applied == 1 && report.conflicts == 1 && !report.omitted && !report.skipped);
  CHECK(replies(&client, "get t key(1)", "row (1,'y')"));
  changecap_apply_close(&it);
  changecap_apply_close(&it);
  changecap_close(&client);
}

static void answered(void){
  changecap_client client = CHANGECAP_CLOSED;
  changecap_application it = CHANGECAP_CLOSED;
  changecap_fault fault = { 7, 7 };
  changecap_report report;
  bytes row;
  uint32_t kind;
  size_t n = 7;
  uint8_t out[64];
  open_with(&client, "commit insert t (1,'a')");
  /* The first of two inserts replaces the row, and the second one is shown what the first has left. */
  CHECK(begun(&client, INSERT "1200010000000000000001030179", "", &it, &fault) == CHANGECAP_OK);
  CHECK(changecap_apply_answer(&it, CHANGECAP_REPLACE, &fault) == CHANGECAP_OK);
  CHECK(changecap_apply_kind(&it, &kind) == CHANGECAP_OK && kind == CHANGECAP_CONFLICT);
  CHECK(is_side(changecap_apply_present, &it, record("it", 1, "x")));
  CHECK(changecap_apply_answer_row(&it, "\x07", 1, &fault) == CHANGECAP_MALFORMED && fault.kind == CHANGECAP_BAD_FIELD);
  row = record("it", 2, "xy");
  CHECK(changecap_apply_answer_row(&it, row.at, row.n, &fault) == CHANGECAP_MISUSE);
  free(row.at);
  row = record("i", 1);
  CHECK(changecap_apply_answer_row(&it, row.at, row.n, &fault) == CHANGECAP_REFUSED && fault.kind == 3);
  free(row.at);
  row = record("it", 1, "xy");
  CHECK(changecap_apply_answer_row(&it, row.at, row.n, &fault) == CHANGECAP_OK);
  free(row.at);
  CHECK(changecap_apply_buffer(&it, 2, out, sizeof out, &n) == CHANGECAP_MISUSE && n == 7);
  CHECK(changecap_apply_buffer(&it, CHANGECAP_KEYS_ONES, out, sizeof out, &n) == CHANGECAP_OK && n == 34);
  CHECK(changecap_apply_finish(&client, &it, &report, &fault) == CHANGECAP_OK && report.omitted == 1);
  CHECK(replies(&client, "scan t", "rows 1\n(1,'xy')"));
  changecap_apply_close(&it);
  /* An answer that ends it. */
  CHECK(begun(&client, INSERT, "", &it, &fault) == CHANGECAP_OK);
  CHECK(changecap_apply_answer(&it, CHANGECAP_ABORT, &fault) == CHANGECAP_REFUSED);
  CHECK(fault.kind == 15 && fault.at == 0 && changecap_apply_step(&it) == CHANGECAP_MISUSE);
  CHECK(stands_nowhere(&it));
  CHECK(changecap_apply_finish(&client, &it, &report, &fault) == CHANGECAP_MISUSE);
  changecap_apply_close(&it);
  CHECK(command(&client, "commit delete t key(1)") == CHANGECAP_OK);
  CHECK(begun(&client, DELETE, "", &it, &fault) == CHANGECAP_OK);
  CHECK(changecap_apply_kind(&it, &kind) == CHANGECAP_OK && kind == CHANGECAP_NOTFOUND);
  CHECK(changecap_apply_present(&it, out, sizeof out, &n) == CHANGECAP_MISUSE);
  CHECK(changecap_apply_answer(&it, CHANGECAP_REPLACE, &fault) == CHANGECAP_REFUSED && fault.kind == 16);
  changecap_apply_close(&it);
  changecap_close(&client);
}

/* ---- What is committed ---- */

static void committed(void){
  changecap_client client = CHANGECAP_CLOSED;
  changecap_application it = CHANGECAP_CLOSED;
  changecap_batch batch = CHANGECAP_CLOSED;
  changecap_item item;
  changecap_report report;
  changecap_fault fault = { 7, 7 };
  uint8_t key[16];
  size_t n;
  open_with(&client, "commit insert t (1,'a') ; insert t (2,'b')");
  CHECK(begun(&client, INSERT, "", &it, &fault) == CHANGECAP_OK);
  CHECK(changecap_apply_answer(&it, CHANGECAP_OMIT, &fault) == CHANGECAP_OK);
  /* Another row may change. One that was looked at and not changed may not. */
  CHECK(command(&client, "commit update t key(2) set 1 = 'c'") == CHANGECAP_OK);
  CHECK(changecap_apply_finish(&client, &it, &report, &fault) == CHANGECAP_OK && report.version == 4);
  CHECK(command(&client, "commit update t key(1) set 1 = 'c'") == CHANGECAP_OK);
  CHECK(changecap_apply_finish(&client, &it, &report, &fault) == CHANGECAP_REFUSED);
  CHECK(fault.kind == 11 && fault.at == 1 && report.version == 4);
  CHECK(changecap_apply_end(&it, &batch, &fault) == CHANGECAP_OK);
  CHECK(changecap_batch_item(&batch, fault.at, &item) == CHANGECAP_OK && item.kind == CHANGECAP_ITEM_ROW);
  CHECK(changecap_batch_item_key(&batch, fault.at, key, sizeof key, &n) == CHANGECAP_OK && n == 9 && key[8] == 1);
  changecap_batch_close(&batch);
  changecap_apply_close(&it);
  changecap_close(&client);
}

static void filtered(void){
  changecap_client client = CHANGECAP_CLOSED;
  changecap_application it = CHANGECAP_CLOSED;
  changecap_report report;
  changecap_fault fault = { 7, 7 };
  size_t n = 7;
  uint8_t out[64];
  open_with(&client, "commit insert t (1,'a')");
  CHECK(begun(&client, INSERT, "is", &it, &fault) == CHANGECAP_FILTER && fault.kind == 12 && fault.at == 2);
  CHECK(begun(&client, INSERT, "\xff", &it, &fault) == CHANGECAP_MISUSE);
  CHECK(begun(&client, "54020100740012", "all", &it, &fault) == CHANGECAP_MALFORMED);
  CHECK(fault.kind == CHANGECAP_TRUNCATED);
  CHECK(begun(&client, PATCH OTHER_PATCH, "not is t", &it, &fault) == CHANGECAP_OK);
  CHECK(changecap_apply_step(&it) == CHANGECAP_DONE);
  CHECK(changecap_apply_buffer(&it, CHANGECAP_KEYS_ONES, out, sizeof out, &n) == CHANGECAP_MISUSE && n == 7);
  /* What is passed over was not looked at. */
  CHECK(command(&client, "commit update t key(1) set 1 = 'c'") == CHANGECAP_OK);
  CHECK(changecap_apply_finish(&client, &it, &report, &fault) == CHANGECAP_OK);
  CHECK(report.version == 4 && report.applied == 0 && report.conflicts == 0 && report.skipped == 1);
  changecap_apply_close(&it);
  changecap_close(&client);
}

/* ---- Memory ---- */

/* Each request for memory is refused in turn. What is over is begun again, and in the end all is done. */
static void refused_applications(void){
  int granted = 0;
  for(long at = 0; !granted; at++){
    changecap_client client = CHANGECAP_CLOSED;
    changecap_application it = CHANGECAP_CLOSED;
    changecap_fault fault;
    changecap_report report = { 0, 0, 0, 0, 0 };
    bytes row = record("it", 1, "b");
    uint32_t status;
    uint8_t out[64];
    size_t n;
    open_with(&client, "commit insert t (1,'a')");
    refuse_behind(at);
    granted = 1;
    do{
      changecap_apply_close(&it);
      AGAIN(begun(&client, INSERT, "is t", &it, &fault));
      CHECK(status == CHANGECAP_OK);
      AGAIN(changecap_apply_new(&it, out, sizeof out, &n));
      CHECK(status == CHANGECAP_OK);
      AGAIN(changecap_apply_present(&it, out, sizeof out, &n));
      CHECK(status == CHANGECAP_OK && out[n - 1] == 'a');
      status = changecap_apply_answer_row(&it, row.at, row.n, &fault);
      CHECK(status == CHANGECAP_OK || status == CHANGECAP_NOMEM);
      if( status == CHANGECAP_NOMEM ) granted = 0;
    }while( status == CHANGECAP_NOMEM );
    AGAIN(changecap_apply_buffer(&it, CHANGECAP_KEYS_ONES, out, sizeof out, &n));
    CHECK(status == CHANGECAP_OK && n == 20);
    AGAIN(changecap_apply_finish(&client, &it, &report, &fault));
    CHECK(status == CHANGECAP_OK && report.version == 3 && report.omitted == 1);
    granted = none_refused() && granted;
    CHECK(replies(&client, "get t key(1)", "row (1,'b')"));
    free(row.at);
    changecap_apply_close(&it);
    changecap_close(&client);
  }
}

void test_applications(void){
  shown();
  answered();
  committed();
  filtered();
  refused_applications();
}
