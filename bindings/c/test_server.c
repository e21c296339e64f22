/*
 * Tests of the calls of changecap.h on a history by one client: its commands, its sessions and their captures.
 */
#include "testing.h"

/* ---- Commands as text ---- */

static uint32_t called(changecap_client *client, const char *text, changecap_fault *fault){
  bytes exact = copy_of((const uint8_t *)text, strlen(text));
  uint32_t status = changecap_call(client, exact.at, exact.n, fault);
  free(exact.at);
  return status;
}

/* Whether the last reply is this text. */
static int replies(changecap_client *client, const char *text){
  size_t n = strlen(text), len = 99;
  bytes made = { __real_malloc(n + 1), n };
  int same = changecap_reply(client, made.at, n, &len) == CHANGECAP_OK && len == n && !memcmp(made.at, text, n);
  if( n ) CHECK(changecap_reply(client, made.at, n - 1, &len) == CHANGECAP_ROOM && len == n);
  free(made.at);
  return same;
}

static void worked_client(void){
  changecap_client client = CHANGECAP_CLOSED;
  changecap_fault fault = { 77, 77 };
  CHECK(changecap_open(&client) == CHANGECAP_OK && client.at != NULL);
  CHECK(replies(&client, ""));
  CHECK(called(&client, "create t kv", &fault) == CHANGECAP_OK && replies(&client, "ok version 1"));
  CHECK(called(&client, "session", &fault) == CHANGECAP_OK && replies(&client, "session 1"));
  CHECK(called(&client, "attach 1 t", &fault) == CHANGECAP_OK && replies(&client, "ok"));
  CHECK(called(&client, "commit insert t (1,'x')\n", &fault) == CHANGECAP_OK && replies(&client, "ok version 2"));
  CHECK(called(&client, "# a comment\nchangeset 1", &fault) == CHANGECAP_OK);
  CHECK(replies(&client, "changeset 5402010074001200010000000000000001030178"));
  CHECK(called(&client, "create t kv", &fault) == CHANGECAP_REFUSED && replies(&client, "refused: E9 TableExists"));
  CHECK(fault.kind == 77 && fault.at == 77);
  CHECK(called(&client, "frob", &fault) == CHANGECAP_COMMAND && fault.kind == 1 && fault.at == 0);
  CHECK(called(&client, "attach 1 ;", &fault) == CHANGECAP_COMMAND && fault.kind == 1 && fault.at == 9);
  CHECK(called(&client, "apply x'5480' omit omit omit", &fault) == CHANGECAP_COMMAND && fault.kind == 3
        && fault.at == 1);
  CHECK(called(&client, "", &fault) == CHANGECAP_COMMAND && fault.kind == 0);
  CHECK(called(&client, "session\nsession", &fault) == CHANGECAP_COMMAND && fault.kind == 0);
  CHECK(called(&client, "create \xff k", &fault) == CHANGECAP_COMMAND && fault.kind == 0);
  CHECK(called(&client, "isempty 1", &fault) == CHANGECAP_OK && replies(&client, "false"));
  changecap_close(&client);
  CHECK(client.at == NULL);
}

/* NULL stands for no bytes and for no room, and a handle that is closed is closed again. */
static void no_bytes_are_null(void){
  changecap_client client = CHANGECAP_CLOSED;
  changecap_capture capture = CHANGECAP_CLOSED;
  changecap_fault fault = { 77, 77 };
  changecap_report report;
  uint64_t number = 99;
  size_t len = 99;
  changecap_close(&client);
  changecap_capture_close(&capture);
  CHECK(changecap_open(&client) == CHANGECAP_OK);
  CHECK(changecap_reply(&client, NULL, 0, &len) == CHANGECAP_OK && len == 0);
  CHECK(changecap_call(&client, NULL, 0, &fault) == CHANGECAP_COMMAND && fault.kind == 0 && fault.at == 0);
  CHECK(changecap_create(&client, "t", 1, NULL, 0, &number, &fault) == CHANGECAP_MISUSE);
  CHECK(changecap_create(&client, NULL, 0, "\1", 1, &number, &fault) == CHANGECAP_MISUSE);
  CHECK(changecap_create(&client, "t", 1, "\0", 2, &number, &fault) == CHANGECAP_OK);
  CHECK(changecap_save(&client, NULL, 0, &fault) == CHANGECAP_MISUSE);
  CHECK(changecap_apply(&client, NULL, 0, 0, 0, 0, &report, &fault) == CHANGECAP_OK && report.applied == 0);
  CHECK(changecap_session_new(&client, &number, &fault) == CHANGECAP_OK && number == 1);
  CHECK(changecap_session_attach(&client, 1, NULL, 0, &fault) == CHANGECAP_MISUSE);
  CHECK(changecap_session_filter(&client, 1, NULL, 0, &fault) == CHANGECAP_FILTER && fault.kind == 12);
  CHECK(changecap_session_diff(&client, 1, NULL, 0, NULL, 0, &fault) == CHANGECAP_MISUSE);
  CHECK(changecap_session_capture(&client, 1, &capture, &fault) == CHANGECAP_OK && capture.at != NULL);
  CHECK(changecap_capture_changeset(&capture, 1, NULL, 0, &len) == CHANGECAP_OK && len == 0);
  CHECK(changecap_capture_patchset(&capture, 1, NULL, 0, &len) == CHANGECAP_OK && len == 0);
  changecap_capture_close(&capture);
  changecap_capture_close(&capture);
  changecap_close(&client);
  changecap_close(&client);
  CHECK(client.at == NULL && client.shared == NULL && capture.at == NULL);
}

/* Each request for memory is refused in turn: a command that was not carried out is carried out when it comes again. */
static void refused_client(void){
  static const char *const command[] = {
    "create t kv", "session", "attach 1 t", "commit insert t (1,'x') ; insert t (2,null)",
    "commit update t key(1) set 1 = 'y'", "changeset 1 places", "restart 1", "scan t",
  };
  static const char *const reply[] = {
    "ok version 1", "session 1", "ok", "ok version 2", "ok version 3",
    "changeset 54020100740012000100000000000000010301791200010000000000000002" "05",
    "changeset 54020100740012000100000000000000010301791200010000000000000002" "05",
    "rows 2\n(1,'y')\n(2,null)",
  };
  for(long at = 0, granted = 0; !granted; at++){
    changecap_client client = CHANGECAP_CLOSED;
    changecap_fault fault;
    uint32_t status;
    refuse_behind(at);
    granted = 1;
    AGAIN(changecap_open(&client));
    for(size_t i = 0; i < sizeof command / sizeof *command; i++){
      AGAIN(called(&client, command[i], &fault));
      CHECK(status == CHANGECAP_OK && replies(&client, reply[i]));
    }
    granted = none_refused() && granted;
    changecap_close(&client);
  }
}

/* ---- Commands by words and numbers ---- */

/* How a session is captured, and as what. */
typedef struct form {
  uint32_t (*open)(changecap_client *, uint64_t, changecap_capture *, changecap_fault *);
  uint32_t (*write)(changecap_capture *, uint32_t, void *, size_t, size_t *);
} form;

static const form CHANGESET = { changecap_session_capture, changecap_capture_changeset };
static const form PATCHSET = { changecap_session_capture, changecap_capture_patchset };
static const form RESTART = { changecap_session_restart, changecap_capture_changeset };

static uint32_t attached(changecap_client *client, uint64_t session, const char *name, changecap_fault *fault){
  bytes table = copy_of((const uint8_t *)name, strlen(name));
  uint32_t status = changecap_session_attach(client, session, table.at, table.n, fault);
  free(table.at);
  return status;
}

static uint32_t created(changecap_client *client, const char *name, const char *key, uint64_t *version,
                        changecap_fault *fault){
  bytes table = copy_of((const uint8_t *)name, strlen(name)), columns = copy_of((const uint8_t *)key, strlen(key));
  for(size_t i = 0; i < columns.n; i++) columns.at[i] = (uint8_t)(columns.at[i] - '0');
  uint32_t status = changecap_create(client, table.at, table.n, columns.at, columns.n, version, fault);
  free(table.at);
  free(columns.at);
  return status;
}

/* The bytes of a capture, until there is memory: first the call reports the length, then it gets a buffer that is just
 * as long. `granted` is whether there was memory at once. */
static uint32_t bytes_of(form of, changecap_capture *capture, uint32_t key_flags, bytes *made, int *granted){
  size_t len = 12345;
  uint8_t none = 0xaa;
  uint32_t status;
  while( (status = of.write(capture, key_flags, &none, 0, &len)) == CHANGECAP_NOMEM ) *granted = 0;
  *made = copy_of(&none, 0);
  CHECK(none == 0xaa);
  if( status == CHANGECAP_OK ) CHECK(len == 0);
  if( status != CHANGECAP_ROOM ) return status;
  free(made->at);
  made->n = len;
  made->at = __real_malloc(len);
  len = 0;
  while( (status = of.write(capture, key_flags, made->at, made->n, &len)) == CHANGECAP_NOMEM ) *granted = 0;
  CHECK(status == CHANGECAP_OK && len == made->n);
  return status;
}

/* What a session has captured, and whether there was memory at once. */
static uint32_t captured_by(form of, changecap_client *client, uint64_t session, uint32_t key_flags, bytes *made,
                            changecap_fault *fault, int *granted){
  changecap_capture capture = CHANGECAP_CLOSED;
  uint32_t status;
  *made = (bytes){ NULL, 0 };
  while( (status = of.open(client, session, &capture, fault)) == CHANGECAP_NOMEM ) *granted = 0;
  CHECK((capture.at != NULL) == (status == CHANGECAP_OK));
  if( status != CHANGECAP_OK ) return status;
  status = bytes_of(of, &capture, key_flags, made, granted);
  changecap_capture_close(&capture);
  CHECK(capture.at == NULL);
  return status;
}

/* Whether session 1 has captured this blob. */
static int captures(form of, changecap_client *client, uint32_t key_flags, const char *hex){
  changecap_fault fault;
  bytes made;
  int granted = 1;
  int same = captured_by(of, client, 1, key_flags, &made, &fault, &granted) == CHANGECAP_OK && is_hex(made, hex);
  free(made.at);
  return same && granted;
}

/* The tables t and u, and some that are not made. */
static void worked_tables(changecap_client *client){
  changecap_fault fault = { 77, 77 };
  uint64_t version = 77;
  CHECK(created(client, "t", "10", &version, &fault) == CHANGECAP_OK && version == 1 && replies(client, ""));
  CHECK(created(client, "u", "901", &version, &fault) == CHANGECAP_OK && version == 2 && fault.kind == 77);
  CHECK(created(client, "", "10", &version, &fault) == CHANGECAP_MISUSE && fault.kind == 77 && version == 2);
  CHECK(created(client, "v", "", &version, &fault) == CHANGECAP_MISUSE);
  CHECK(created(client, "\xff", "1", &version, &fault) == CHANGECAP_MISUSE);
  CHECK(created(client, "t", "1", &version, &fault) == CHANGECAP_REFUSED && fault.kind == 9 && fault.at == 0
        && version == 2);
}

static void worked_sessions(void){
  changecap_client client = CHANGECAP_CLOSED;
  changecap_fault fault = { 77, 77 };
  uint64_t session = 77;
  uint32_t flag = 77;
  int granted = 1;
  bytes made;
  CHECK(changecap_open(&client) == CHANGECAP_OK);
  worked_tables(&client);
  CHECK(changecap_session_new(&client, &session, &fault) == CHANGECAP_OK && session == 1);
  CHECK(attached(&client, 1, "t", &fault) == CHANGECAP_OK);
  CHECK(attached(&client, 2, "t", &fault) == CHANGECAP_REFUSED && fault.kind == 18 && fault.at == 0);
  CHECK(attached(&client, 1, "", &fault) == CHANGECAP_MISUSE);
  CHECK(changecap_session_isempty(&client, 1, &flag, &fault) == CHANGECAP_OK && flag == 1);
  CHECK(changecap_session_enable(&client, 1, CHANGECAP_ASK, &flag, &fault) == CHANGECAP_OK && flag == 1);
  CHECK(changecap_session_indirect(&client, 1, CHANGECAP_ASK, &flag, &fault) == CHANGECAP_OK && flag == 0);
  CHECK(changecap_session_indirect(&client, 1, 3, &flag, &fault) == CHANGECAP_MISUSE && flag == 0);
  CHECK(called(&client, "commit insert t (1,'x') ; insert u (1,2,3)", &fault) == CHANGECAP_OK);
  CHECK(changecap_session_isempty(&client, 1, &flag, &fault) == CHANGECAP_OK && flag == 0);
  CHECK(captures(CHANGESET, &client, CHANGECAP_KEYS_ONES, INSERT));
  CHECK(captures(PATCHSET, &client, CHANGECAP_KEYS_PLACES, PATCH));
  CHECK(captured_by(CHANGESET, &client, 1, 2, &made, &fault, &granted) == CHANGECAP_MISUSE);
  free(made.at);
  CHECK(captured_by(RESTART, &client, 9, 0, &made, &fault, &granted) == CHANGECAP_REFUSED && fault.kind == 18);
  free(made.at);
  CHECK(changecap_session_enable(&client, 1, CHANGECAP_OFF, &flag, &fault) == CHANGECAP_OK && flag == 0);
  CHECK(called(&client, "commit insert t (2,null)", &fault) == CHANGECAP_OK);
  CHECK(captures(RESTART, &client, CHANGECAP_KEYS_ONES, INSERT));
  CHECK(captures(RESTART, &client, CHANGECAP_KEYS_ONES, ""));
  CHECK(changecap_session_enable(&client, 1, CHANGECAP_ON, &flag, &fault) == CHANGECAP_OK && flag == 1);
  CHECK(changecap_session_indirect(&client, 1, CHANGECAP_ON, &flag, &fault) == CHANGECAP_OK && flag == 1);
  CHECK(changecap_session_attach_all(&client, 1, &fault) == CHANGECAP_OK);
  CHECK(called(&client, "commit delete u key(1,3)", &fault) == CHANGECAP_OK);
  CHECK(captures(CHANGESET, &client, CHANGECAP_KEYS_PLACES,
                 "540301000275000901010000000000000001010000000000000002010000000000000003"));
  CHECK(changecap_session_drop(&client, 1, &fault) == CHANGECAP_OK);
  CHECK(changecap_session_isempty(&client, 1, &flag, &fault) == CHANGECAP_REFUSED && fault.kind == 18 && flag == 1);
  CHECK(changecap_session_drop(&client, 1, &fault) == CHANGECAP_REFUSED);
  changecap_close(&client);
}

static uint32_t applied(changecap_client *client, const char *hex, const uint32_t answers[3], changecap_report *report,
                        changecap_fault *fault){
  bytes blob = of_hex(hex, strlen(hex)), exact = copy_of(blob.at, blob.n);
  uint32_t status = changecap_apply(client, exact.at, exact.n, answers[0], answers[1], answers[2], report, fault);
  free(blob.at);
  free(exact.at);
  return status;
}

static int is_report(changecap_report is, uint64_t version, uint64_t done, uint64_t conflicts, uint64_t omitted,
                     uint64_t skipped){
  return is.version == version && is.applied == done && is.conflicts == conflicts && is.omitted == omitted
      && is.skipped == skipped;
}

static void worked_applications(void){
  const char *two = "5402010074001200010000000000000002030178" "1200010000000000000001030178";
  const uint32_t omit[3] = { 0, 0, 0 }, abort[3] = { 2, 2, 2 }, replace[3] = { 1, 1, 1 }, other[3] = { 0, 0, 3 };
  changecap_client client = CHANGECAP_CLOSED;
  changecap_fault fault = { 77, 77 };
  changecap_report report = { 77, 77, 77, 77, 77 };
  uint64_t version;
  CHECK(changecap_open(&client) == CHANGECAP_OK);
  CHECK(created(&client, "t", "10", &version, &fault) == CHANGECAP_OK);
  CHECK(applied(&client, INSERT, other, &report, &fault) == CHANGECAP_MISUSE && is_report(report, 77, 77, 77, 77, 77));
  CHECK(applied(&client, INSERT, abort, &report, &fault) == CHANGECAP_OK && is_report(report, 2, 1, 0, 0, 0));
  CHECK(applied(&client, INSERT, omit, &report, &fault) == CHANGECAP_OK && is_report(report, 3, 0, 1, 1, 0));
  CHECK(applied(&client, UPDATE, abort, &report, &fault) == CHANGECAP_OK && is_report(report, 4, 1, 0, 0, 0));
  CHECK(applied(&client, INSERT, replace, &report, &fault) == CHANGECAP_OK && is_report(report, 5, 1, 1, 0, 0));
  CHECK(applied(&client, OTHER_TABLE, abort, &report, &fault) == CHANGECAP_OK && is_report(report, 6, 0, 0, 0, 1));
  CHECK(fault.kind == 77 && fault.at == 77 && replies(&client, ""));
  CHECK(applied(&client, two, abort, &report, &fault) == CHANGECAP_REFUSED && fault.kind == 15 && fault.at == 1);
  CHECK(is_report(report, 6, 0, 0, 0, 1));
  CHECK(applied(&client, "5480", omit, &report, &fault) == CHANGECAP_MALFORMED && fault.kind == 3 && fault.at == 1);
  CHECK(called(&client, "commit delete t key(1)", &fault) == CHANGECAP_OK);
  CHECK(applied(&client, UPDATE, replace, &report, &fault) == CHANGECAP_REFUSED && fault.kind == 16 && fault.at == 0);
  CHECK(called(&client, "scan t", &fault) == CHANGECAP_OK && replies(&client, "rows 0"));
  changecap_close(&client);
}

/* Applies the INSERT, and leaves these sessions as they are. */
static uint32_t applied_quietly(changecap_client *client, const uint64_t *quiet, size_t n, const uint32_t by[3],
                                changecap_report *report, changecap_fault *fault){
  changecap_options options = { .quiet = quiet, .quiet_n = n };
  changecap_passed passed = { 77, 77 };
  bytes blob = of_hex(INSERT, strlen(INSERT));
  uint32_t status = changecap_apply_with(client, blob.at, blob.n, by[0], by[1], by[2], &options, report, &passed,
                                         fault);
  CHECK(passed.groups == (status == CHANGECAP_OK ? 0 : 77) && passed.changes == passed.groups);
  free(blob.at);
  return status;
}

/* Whether a session has recorded nothing. */
static int is_empty(changecap_client *client, uint64_t session){
  changecap_fault fault;
  uint32_t flag = 77;
  CHECK(changecap_session_isempty(client, session, &flag, &fault) == CHANGECAP_OK);
  return flag != 0;
}

static void quiet_applications(void){
  const uint32_t replace[3] = { 1, 1, 1 }, other[3] = { 0, 0, 3 };
  const uint64_t two[2] = { 1, 3 };
  changecap_client client = CHANGECAP_CLOSED;
  changecap_iter it = CHANGECAP_CLOSED;
  changecap_fault fault = { 77, 77 };
  changecap_report report = { 77, 77, 77, 77, 77 };
  changecap_options options = { .quiet = two, .quiet_n = 1 };
  changecap_passed passed;
  bytes blob = of_hex(UPDATE, strlen(UPDATE));
  CHECK(changecap_open(&client) == CHANGECAP_OK);
  CHECK(called(&client, "create t kv", &fault) == CHANGECAP_OK);
  for(int i = 0; i < 2; i++) CHECK(called(&client, "session", &fault) == CHANGECAP_OK);
  for(uint64_t session = 1; session < 3; session++)
    CHECK(changecap_session_attach_all(&client, session, &fault) == CHANGECAP_OK);
  CHECK(applied_quietly(&client, two, 1, other, &report, &fault) == CHANGECAP_MISUSE && fault.kind == 77);
  CHECK(applied_quietly(&client, two, 2, replace, &report, &fault) == CHANGECAP_REFUSED && fault.kind == 18);
  CHECK(is_report(report, 77, 77, 77, 77, 77));
  CHECK(applied_quietly(&client, two, 1, replace, &report, &fault) == CHANGECAP_OK);
  CHECK(is_report(report, 2, 1, 0, 0, 0));
  CHECK(is_empty(&client, 1) && !is_empty(&client, 2));
  CHECK(changecap_iter_open(blob.at, blob.n, &it, &fault) == CHANGECAP_OK);
  CHECK(changecap_apply_iter_with(&client, &it, 2, 2, 2, &options, &report, &passed, &fault) == CHANGECAP_OK);
  CHECK(is_report(report, 3, 1, 0, 0, 0) && is_empty(&client, 1));
  CHECK(changecap_try_apply_with(&client, &it, 0, 0, 0, "all", 3, two, 1, &report, &passed, &fault) == CHANGECAP_OK);
  CHECK(is_report(report, 4, 0, 1, 1, 0) && is_empty(&client, 1));
  CHECK(applied_quietly(&client, NULL, 0, replace, &report, &fault) == CHANGECAP_OK);
  CHECK(is_report(report, 5, 1, 1, 0, 0) && !is_empty(&client, 1));
  changecap_iter_close(&it);
  free(blob.at);
  changecap_close(&client);
}

/* Applies an INSERT of each of two tables, of those that a filter accepts. */
static uint32_t applied_to(changecap_client *client, const char *filter, uint32_t by, changecap_report *report,
                           changecap_passed *passed, changecap_fault *fault){
  const char *both = OTHER_TABLE INSERT;
  bytes text = copy_of((const uint8_t *)filter, strlen(filter)), blob = of_hex(both, strlen(both));
  changecap_options options = { .filter = text.at, .filter_n = text.n };
  uint32_t status = changecap_apply_with(client, blob.at, blob.n, by, by, by, &options, report, passed, fault);
  free(text.at);
  free(blob.at);
  return status;
}

static int is_passed(changecap_passed is, uint64_t groups, uint64_t changes){
  return is.groups == groups && is.changes == changes;
}

static void filtered_applications(void){
  changecap_client client = CHANGECAP_CLOSED;
  changecap_iter it = CHANGECAP_CLOSED;
  changecap_fault fault = { 77, 77 };
  changecap_report report = { 77, 77, 77, 77, 77 };
  changecap_passed passed = { 77, 77 };
  changecap_options options = { .filter = "is t", .filter_n = 4 };
  bytes blob = of_hex(OTHER_TABLE INSERT, strlen(OTHER_TABLE INSERT));
  uint8_t buffer[64];
  size_t len;
  CHECK(changecap_open(&client) == CHANGECAP_OK);
  CHECK(called(&client, "create t kv", &fault) == CHANGECAP_OK);
  CHECK(applied_to(&client, "is", 2, &report, &passed, &fault) == CHANGECAP_FILTER && fault.kind == 12);
  CHECK(applied_to(&client, "\xff", 2, &report, &passed, &fault) == CHANGECAP_MISUSE);
  CHECK(applied_to(&client, "is t", 3, &report, &passed, &fault) == CHANGECAP_MISUSE && is_passed(passed, 77, 77));
  CHECK(applied_to(&client, "is t", 2, &report, &passed, &fault) == CHANGECAP_OK && is_report(report, 2, 1, 0, 0, 0));
  CHECK(is_passed(passed, 1, 1));
  CHECK(applied_to(&client, "is t", 2, &report, &passed, &fault) == CHANGECAP_REFUSED && fault.kind == 15);
  CHECK(fault.at == 1 && is_passed(passed, 1, 1));
  CHECK(applied_to(&client, "or()", 2, &report, &passed, &fault) == CHANGECAP_OK && is_passed(passed, 2, 2));
  CHECK(is_report(report, 3, 0, 0, 0, 0));
  CHECK(applied_to(&client, "", 0, &report, &passed, &fault) == CHANGECAP_OK && is_report(report, 4, 0, 1, 1, 1));
  CHECK(is_passed(passed, 0, 0));
  CHECK(changecap_iter_open(blob.at, blob.n, &it, &fault) == CHANGECAP_OK && changecap_iter_next(&it) == CHANGECAP_ROW);
  CHECK(changecap_apply_iter_with(&client, &it, 2, 2, 2, &options, &report, &passed, &fault) == CHANGECAP_REFUSED);
  CHECK(fault.at == 1 && changecap_iter_next(&it) == CHANGECAP_ROW && changecap_iter_next(&it) == CHANGECAP_DONE);
  CHECK(changecap_apply_iter_with(&client, &it, 0, 0, 0, &options, &report, &passed, &fault) == CHANGECAP_OK);
  CHECK(changecap_iter_next(&it) == CHANGECAP_ROW && changecap_iter_next(&it) == CHANGECAP_DONE);
  CHECK(changecap_iter_buffer(&it, CHANGECAP_KEYS_ONES, buffer, sizeof buffer, &len) == CHANGECAP_OK);
  CHECK(is_hex((bytes){ buffer, len }, INSERT));
  changecap_iter_close(&it);
  free(blob.at);
  changecap_close(&client);
}

static uint32_t filtered(changecap_client *client, uint64_t session, const char *filter, changecap_fault *fault){
  bytes text = copy_of((const uint8_t *)filter, strlen(filter));
  uint32_t status = changecap_session_filter(client, session, text.at, text.n, fault);
  free(text.at);
  return status;
}

static uint32_t saved(changecap_client *client, const char *name, changecap_fault *fault){
  bytes database = copy_of((const uint8_t *)name, strlen(name));
  uint32_t status = changecap_save(client, database.at, database.n, fault);
  free(database.at);
  return status;
}

static uint32_t compared(changecap_client *client, uint64_t session, const char *from, const char *name,
                         changecap_fault *fault){
  bytes database = copy_of((const uint8_t *)from, strlen(from)), table = copy_of((const uint8_t *)name, strlen(name));
  uint32_t status = changecap_session_diff(client, session, database.at, database.n, table.at, table.n, fault);
  free(database.at);
  free(table.at);
  return status;
}

static void worked_differences(void){
  changecap_client client = CHANGECAP_CLOSED;
  changecap_fault fault = { 77, 77 };
  uint64_t version, session;
  CHECK(changecap_open(&client) == CHANGECAP_OK);
  CHECK(created(&client, "a", "10", &version, &fault) == CHANGECAP_OK);
  CHECK(created(&client, "b", "10", &version, &fault) == CHANGECAP_OK);
  CHECK(changecap_session_new(&client, &session, &fault) == CHANGECAP_OK && session == 1);
  CHECK(filtered(&client, 1, "not is 'a'", &fault) == CHANGECAP_OK && fault.kind == 77);
  CHECK(filtered(&client, 1, "not is", &fault) == CHANGECAP_FILTER && fault.kind == 12 && fault.at == 6);
  CHECK(filtered(&client, 1, "not is (", &fault) == CHANGECAP_FILTER && fault.kind == 12 && fault.at == 7);
  CHECK(filtered(&client, 1, "not not not not not not not not not not not not not not not not not not not not not not "
                 "not not not not not not not not not not all", &fault) == CHANGECAP_FILTER
        && fault.kind == 13 && fault.at == 0);
  CHECK(filtered(&client, 1, "is '\xff'", &fault) == CHANGECAP_MISUSE && fault.kind == 13);
  CHECK(filtered(&client, 2, "all", &fault) == CHANGECAP_REFUSED && fault.kind == 18);
  CHECK(saved(&client, "before", &fault) == CHANGECAP_OK && saved(&client, "", &fault) == CHANGECAP_MISUSE);
  CHECK(called(&client, "commit insert a (1,'x') ; insert b (2,'y')", &fault) == CHANGECAP_OK);
  CHECK(captures(RESTART, &client, CHANGECAP_KEYS_ONES, "5402010062001200010000000000000002030179"));
  CHECK(compared(&client, 1, "before", "a", &fault) == CHANGECAP_OK);
  CHECK(captures(CHANGESET, &client, CHANGECAP_KEYS_ONES, "5402010061001200010000000000000001030178"));
  CHECK(compared(&client, 1, "after", "a", &fault) == CHANGECAP_REFUSED && fault.kind == 19);
  CHECK(compared(&client, 1, "", "a", &fault) == CHANGECAP_MISUSE);
  CHECK(compared(&client, 1, "before", "", &fault) == CHANGECAP_MISUSE);
  CHECK(created(&client, "c", "1", &version, &fault) == CHANGECAP_OK);
  CHECK(compared(&client, 1, "before", "c", &fault) == CHANGECAP_REFUSED && fault.kind == 14 && fault.at == 0);
  CHECK(compared(&client, 9, "before", "a", &fault) == CHANGECAP_REFUSED && fault.kind == 18);
  changecap_close(&client);
}

/* Asks for what session 1 has captured, which is this blob, until there is memory. Whether there was at once. */
static int captures_again(form of, changecap_client *client, const char *hex){
  changecap_fault fault;
  bytes made;
  int granted = 1;
  uint32_t status = captured_by(of, client, 1, CHANGECAP_KEYS_ONES, &made, &fault, &granted);
  CHECK(status == CHANGECAP_OK && is_hex(made, hex));
  free(made.at);
  return granted;
}

/* Each request for memory is refused in turn: a call that was not carried out is carried out when it comes again. */
static void refused_sessions(void){
  for(long at = 0, granted = 0; !granted; at++){
    changecap_client client = CHANGECAP_CLOSED;
    changecap_fault fault;
    changecap_report report;
    changecap_passed passed;
    uint64_t version = 0, session = 0;
    uint32_t flag, status;
    CHECK(changecap_open(&client) == CHANGECAP_OK);
    refuse_behind(at);
    granted = 1;
    AGAIN(created(&client, "t", "10", &version, &fault));
    CHECK(status == CHANGECAP_OK && version == 1);
    AGAIN(changecap_session_new(&client, &session, &fault));
    CHECK(status == CHANGECAP_OK && session == 1);
    AGAIN(attached(&client, 1, "t", &fault));
    CHECK(status == CHANGECAP_OK);
    AGAIN(called(&client, "commit insert t (1,'x')", &fault));
    CHECK(status == CHANGECAP_OK);
    AGAIN(changecap_session_isempty(&client, 1, &flag, &fault));
    CHECK(status == CHANGECAP_OK && flag == 0);
    granted = captures_again(RESTART, &client, INSERT) && granted;
    AGAIN(saved(&client, "before", &fault));
    CHECK(status == CHANGECAP_OK);
    AGAIN(filtered(&client, 1, "or(is 'u',starts v)", &fault));
    CHECK(status == CHANGECAP_OK);
    AGAIN(applied(&client, DELETE, (const uint32_t[3]){ 2, 2, 2 }, &report, &fault));
    CHECK(status == CHANGECAP_OK && is_report(report, 3, 1, 0, 0, 0));
    AGAIN(compared(&client, 1, "before", "t", &fault));
    CHECK(status == CHANGECAP_OK);
    granted = captures_again(CHANGESET, &client, DELETE) && granted;
    AGAIN(applied_quietly(&client, &session, 1, (const uint32_t[3]){ 2, 2, 2 }, &report, &fault));
    CHECK(status == CHANGECAP_OK && is_report(report, 4, 1, 0, 0, 0));
    AGAIN(applied_to(&client, "is t", 0, &report, &passed, &fault));
    CHECK(status == CHANGECAP_OK && is_report(report, 5, 0, 1, 1, 0) && is_passed(passed, 1, 1));
    AGAIN(changecap_session_drop(&client, 1, &fault));
    CHECK(status == CHANGECAP_OK);
    granted = none_refused() && granted;
    changecap_close(&client);
  }
}

/* ---- Dumps ---- */

/* An empty table with a key of two columns, and the row (1,'x') of the table t. */
#define TABLES "54030100026500" INSERT

/* The tables e and t as they are, dumped one behind the other. */
static uint32_t dumped(changecap_client *client, uint32_t key_flags, bytes *to){
  static const char *const table[] = { "e", "t" };
  changecap_snapshot snapshot = CHANGECAP_CLOSED;
  uint32_t status = changecap_snapshot_open(client, &snapshot);
  size_t all = 0;
  for(size_t i = 0; status == CHANGECAP_OK && i < sizeof table / sizeof *table; i++){
    size_t len = 0;
    status = changecap_dump(&snapshot, table[i], 1, key_flags, to->at + all, to->n - all, &len);
    all += len;
  }
  changecap_snapshot_close(&snapshot);
  to->n = all;
  return status;
}

static uint32_t loaded(changecap_client *client, const char *hex, changecap_report *report, changecap_fault *fault){
  bytes blob = of_hex(hex, strlen(hex));
  uint32_t status = changecap_load(client, blob.at, blob.n, report, fault);
  free(blob.at);
  return status;
}

static void worked_dumps(void){
  changecap_client client = CHANGECAP_CLOSED;
  changecap_fault fault = { 77, 77 };
  changecap_report report = { 77, 77, 77, 77, 77 };
  uint8_t room[64];
  bytes made = { room, sizeof room };
  CHECK(changecap_open(&client) == CHANGECAP_OK);
  CHECK(dumped(&client, CHANGECAP_KEYS_PLACES, &made) == CHANGECAP_MISUSE && made.n == 0);
  CHECK(loaded(&client, DELETE, &report, &fault) == CHANGECAP_REFUSED && fault.kind == 15 && fault.at == 0);
  CHECK(loaded(&client, "5480", &report, &fault) == CHANGECAP_MALFORMED && fault.kind == 3 && fault.at == 1);
  CHECK(report.version == 77);
  CHECK(loaded(&client, TABLES, &report, &fault) == CHANGECAP_OK && is_report(report, 3, 1, 0, 0, 0));
  CHECK(called(&client, "scan e", &fault) == CHANGECAP_OK && replies(&client, "rows 0"));
  CHECK(called(&client, "scan t", &fault) == CHANGECAP_OK && replies(&client, "rows 1\n(1,'x')"));
  CHECK(loaded(&client, INSERT, &report, &fault) == CHANGECAP_REFUSED && fault.kind == 9);
  made.n = 26;
  CHECK(dumped(&client, CHANGECAP_KEYS_PLACES, &made) == CHANGECAP_ROOM && made.n == 27);
  made.n = sizeof room;
  CHECK(dumped(&client, CHANGECAP_KEYS_PLACES, &made) == CHANGECAP_OK && is_hex(made, TABLES));
  made.n = sizeof room;
  CHECK(dumped(&client, 7, &made) == CHANGECAP_MISUSE);
  changecap_close(&client);
}

/* Each request for memory is refused in turn: what was created before one stays, and is named by what comes again. */
static void refused_dumps(void){
  for(long at = 0, granted = 0; !granted; at++){
    changecap_client client = CHANGECAP_CLOSED;
    changecap_fault fault = { 0, 0 };
    changecap_report report;
    uint8_t room[64];
    bytes made = { room, sizeof room };
    uint32_t status;
    refuse_behind(at);
    granted = 1;
    AGAIN(changecap_open(&client));
    AGAIN(loaded(&client, TABLES, &report, &fault));
    CHECK(status == CHANGECAP_OK ? is_report(report, 3, 1, 0, 0, 0) : status == CHANGECAP_REFUSED && fault.kind == 9);
    if( status == CHANGECAP_OK ){
      AGAIN(dumped(&client, CHANGECAP_KEYS_PLACES, (made.n = sizeof room, &made)));
      CHECK(status == CHANGECAP_OK && is_hex(made, TABLES));
    }
    granted = none_refused() && granted;
    changecap_close(&client);
  }
}

/* A blob is applied just where it has no fault; and refused where it is applied once more, or it has no changes. */
void application_agrees(bytes blob, uint32_t wanted, changecap_fault fault){
  static const uint32_t omit = CHANGECAP_OMIT, abort = CHANGECAP_ABORT;
  changecap_client client = CHANGECAP_CLOSED;
  changecap_fault other = { 77, 77 };
  changecap_report report = { 77, 77, 77, 77, 77 };
  uint64_t version = 0;
  CHECK(changecap_open(&client) == CHANGECAP_OK);
  CHECK(created(&client, "t", "10", &version, &other) == CHANGECAP_OK && version == 1);
  uint32_t status = changecap_apply(&client, blob.at, blob.n, omit, omit, omit, &report, &other);
  CHECK(status == wanted);
  if( status == CHANGECAP_MALFORMED ){
    CHECK(other.kind == fault.kind && other.at == fault.at && report.version == 77);
  }else{
    CHECK(other.kind == 77 && report.version == 2 && report.omitted == report.conflicts);
    uint64_t changes = report.applied;
    status = changecap_apply(&client, blob.at, blob.n, abort, abort, abort, &report, &other);
    CHECK(status == CHANGECAP_REFUSED ? other.kind == 15 : status == CHANGECAP_OK);
    if( status == CHANGECAP_OK && changes == 0 ) CHECK(report.applied == 0);
  }
  changecap_close(&client);
}

void test_server(void){
  worked_client();
  no_bytes_are_null();
  refused_client();
  worked_sessions();
  worked_applications();
  quiet_applications();
  filtered_applications();
  worked_differences();
  refused_sessions();
  worked_dumps();
  refused_dumps();
}
