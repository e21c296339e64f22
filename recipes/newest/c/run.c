/* Of two writes of a row the one with the newest time stays. ../README.md says how. */
#include <changecap.h>

/* Whether the change is a newer write than the row that is there. The time is in the column 2. A deletion has none, and
 * where there is no row it was deleted here. */
static int is_newer(changecap_application *it){
  changecap_value theirs = { 0, 0, 0 }, ours = { 0, INT64_MAX, 0 };
  uint8_t record[1024];
  size_t n;
  if( changecap_apply_new(it, record, sizeof record, &n) == CHANGECAP_OK ) changecap_field(record, n, 2, &theirs);
  if( changecap_apply_present(it, record, sizeof record, &n) == CHANGECAP_OK ) changecap_field(record, n, 2, &ours);
  return theirs.number > ours.number;
}

/* Applies a changeset on a snapshot, and commits it where no row that it names has changed since. */
static uint32_t apply_newest(changecap_client *to, changecap_snapshot *of, const void *changeset, size_t n,
                             changecap_report *report, changecap_fault *fault){
  changecap_application it = CHANGECAP_CLOSED;
  uint32_t status = changecap_apply_open(of, changeset, n, NULL, 0, &it, fault);
  while( status == CHANGECAP_OK && changecap_apply_step(&it) == CHANGECAP_ROW )
    status = changecap_apply_answer(&it, is_newer(&it) ? CHANGECAP_REPLACE : CHANGECAP_OMIT, fault);
  if( status == CHANGECAP_OK ) status = changecap_apply_finish(to, &it, report, fault);
  changecap_apply_close(&it);
  return status;
}

/* ---- A run ---- */

#include <stdio.h>
#include <stdlib.h>

#define RIGHT(call) do{ if( (call) != CHANGECAP_OK ){ fprintf(stderr, "%s\n", #call); exit(1); } }while( 0 )

static void command(changecap_client *of, const char *text){
  changecap_fault fault;
  RIGHT(changecap_call(of, text, strlen(text), &fault));
}

/* A list on a device: rows of an item, and when it was written. */
static void open_list(changecap_client *of){
  RIGHT(changecap_open(of));
  command(of, "create t kvv");
  command(of, "commit insert t (1,'milk',1) ; insert t (2,'eggs',1) ; insert t (3,'tea',1)");
}

static void show(changecap_client *of){
  changecap_snapshot snapshot = CHANGECAP_CLOSED;
  changecap_rows rows = CHANGECAP_CLOSED;
  changecap_fault fault;
  changecap_value id, time;
  char text[32];
  size_t n;
  RIGHT(changecap_snapshot_open(of, &snapshot));
  RIGHT(changecap_scan(&snapshot, "t", 1, &rows, &fault));
  for(const char *between = ""; changecap_step(&rows) == CHANGECAP_ROW; between = ", "){
    RIGHT(changecap_column(&rows, 0, &id));
    RIGHT(changecap_column_bytes(&rows, 1, text, sizeof text, &n));
    RIGHT(changecap_column(&rows, 2, &time));
    printf("%s%lld %.*s at %lld", between, (long long)id.number, (int)n, text, (long long)time.number);
  }
  putchar('\n');
  changecap_rows_close(&rows);
  changecap_snapshot_close(&snapshot);
}

int main(void){
  changecap_client phone = CHANGECAP_CLOSED, tablet = CHANGECAP_CLOSED;
  changecap_capture capture = CHANGECAP_CLOSED;
  changecap_snapshot snapshot = CHANGECAP_CLOSED;
  changecap_report report;
  changecap_fault fault;
  uint64_t session;
  uint8_t changeset[512];
  size_t n;
  uint32_t status;
  open_list(&phone);
  open_list(&tablet);
  RIGHT(changecap_session_new(&phone, &session, &fault));
  RIGHT(changecap_session_attach_all(&phone, session, &fault));
  command(&phone, "commit update t key(1) set 1 = 'oat milk', 2 = 7 ; update t key(2) set 1 = 'six eggs', 2 = 6 ; "
                  "update t key(3) set 1 = 'green tea', 2 = 8 ; insert t (4,'bread',3)");
  command(&tablet, "commit update t key(1) set 1 = 'no milk', 2 = 5 ; update t key(2) set 1 = 'ten eggs', 2 = 9 ; "
                   "delete t key(3) ; insert t (4,'rolls',4)");
  RIGHT(changecap_session_capture(&phone, session, &capture, &fault));
  RIGHT(changecap_capture_changeset(&capture, CHANGECAP_KEYS_PLACES, changeset, sizeof changeset, &n));
  do{
    RIGHT(changecap_snapshot_open(&tablet, &snapshot));
    status = apply_newest(&tablet, &snapshot, changeset, n, &report, &fault);
    changecap_snapshot_close(&snapshot);
  }while( status == CHANGECAP_REFUSED && fault.kind == CHANGECAP_E_STALE ); /* one of the rows has changed */
  RIGHT(status);
  printf("%llu of %llu changes that met a conflict are omitted\n", (unsigned long long)report.omitted,
         (unsigned long long)report.conflicts);
  show(&tablet);
  changecap_capture_close(&capture);
  changecap_close(&phone);
  changecap_close(&tablet);
}
