/* Undo and redo: each edit is captured, and undone by the inverse of its changeset. */
#include <changecap.h>
#include <stdio.h>
#include <stdlib.h>

struct blob { uint8_t *at; size_t n; };
struct stack { struct blob items[16]; size_t n; };

static changecap_client client = CHANGECAP_CLOSED;
static changecap_batch batch = CHANGECAP_CLOSED;
static changecap_fault fault;
static uint64_t session, version;
static struct stack done, undone;

static void check(uint32_t status, int line){
  if( status == CHANGECAP_OK ) return;
  fprintf(stderr, "line %d: %s (%u at %zu)\n", line, changecap_errstr(status), (unsigned)fault.kind, fault.at);
  exit(1);
}
#define OK(call) check(call, __LINE__)

static void push(struct stack *stack, struct blob blob){
  if( stack->n == 16 ) exit(1);
  stack->items[stack->n++] = blob;
}

static void clear(struct stack *stack){
  while( stack->n > 0 ) free(stack->items[--stack->n].at);
}

static void show(const char *what){
  changecap_snapshot snapshot = CHANGECAP_CLOSED;
  changecap_rows rows = CHANGECAP_CLOSED;
  changecap_value id;
  char text[64];
  size_t len;
  int any = 0;
  printf("%s:", what);
  OK(changecap_snapshot_open(&client, &snapshot));
  OK(changecap_scan(&snapshot, "t", 1, &rows, &fault));
  changecap_snapshot_close(&snapshot);
  for(; changecap_step(&rows) == CHANGECAP_ROW; any = 1){
    OK(changecap_column(&rows, 0, &id));
    OK(changecap_column_bytes(&rows, 1, text, sizeof text, &len));
    printf(" (%lld,'%.*s')", (long long)id.number, (int)len, text);
  }
  changecap_rows_close(&rows);
  printf(any ? "\n" : " no rows\n");
}

/* Commits the batch, and keeps what it changed. */
static void edit(void){
  changecap_capture capture = CHANGECAP_CLOSED;
  struct blob blob = { NULL, 0 };
  size_t room = 0;
  uint32_t status;
  OK(changecap_commit_captured(&client, &batch, session, &version, &capture, &fault));
  while( (status = changecap_capture_changeset(&capture, CHANGECAP_KEYS_PLACES, blob.at, room, &blob.n))
         == CHANGECAP_ROOM ){
    free(blob.at);
    if( (blob.at = malloc(room = blob.n)) == NULL ) exit(1);
  }
  OK(status);
  changecap_capture_close(&capture);
  push(&done, blob);
  clear(&undone); /* what was undone does not fit any more */
  show("edit");
}

/* Applies a changeset, which the session does not record. */
static void apply(const uint8_t *blob, size_t n){
  changecap_report report;
  uint32_t flag;
  OK(changecap_session_enable(&client, session, CHANGECAP_OFF, &flag, &fault));
  OK(changecap_apply(&client, blob, n, CHANGECAP_ABORT, CHANGECAP_ABORT, CHANGECAP_ABORT, &report, &fault));
  OK(changecap_session_enable(&client, session, CHANGECAP_ON, &flag, &fault));
}

static void undo(void){
  if( done.n == 0 ){
    printf("undo: nothing to undo\n");
    return;
  }
  struct blob blob = done.items[--done.n];
  uint8_t *inverse = malloc(blob.n + 1);
  size_t n;
  if( inverse == NULL ) exit(1);
  OK(changecap_invert(blob.at, blob.n, CHANGECAP_KEYS_PLACES, inverse, blob.n, &n, &fault));
  apply(inverse, n);
  free(inverse);
  push(&undone, blob);
  show("undo");
}

static void redo(void){
  if( undone.n == 0 ){
    printf("redo: nothing to redo\n");
    return;
  }
  struct blob blob = undone.items[--undone.n];
  apply(blob.at, blob.n);
  push(&done, blob);
  show("redo");
}

static void insert(int64_t id, const char *text){
  uint8_t row[64];
  size_t n = changecap_put_int(row, id);
  n += changecap_put_text(row + n, text, strlen(text));
  OK(changecap_insert(&batch, "t", 1, row, n, CHANGECAP_DIRECT, &fault));
}

static void set_text(int64_t id, const char *text){
  uint8_t key[9], row[64];
  size_t n = changecap_put_undefined(row);
  n += changecap_put_text(row + n, text, strlen(text));
  OK(changecap_update(&batch, "t", 1, key, changecap_put_int(key, id), 0, row, n, CHANGECAP_DIRECT, &fault));
}

int main(void){
  static const uint8_t columns[] = { 1, 0 };
  uint8_t key[9], to[9];
  OK(changecap_open(&client));
  OK(changecap_create(&client, "t", 1, columns, 2, &version, &fault));
  OK(changecap_session_new(&client, &session, &fault));
  OK(changecap_session_attach(&client, session, "t", 1, &fault));
  OK(changecap_batch_open(&batch));
  insert(1, "one");
  insert(2, "two");
  edit();
  set_text(1, "uno");
  insert(3, "three");
  edit();
  OK(changecap_update(&batch, "t", 1, key, changecap_put_int(key, 2), 0, to, changecap_put_int(to, 4),
                      CHANGECAP_DIRECT, &fault)); /* another key: update t key(2) set 0 = 4 */
  OK(changecap_delete(&batch, "t", 1, key, changecap_put_int(key, 3), 0, CHANGECAP_DIRECT, &fault));
  edit();
  undo();
  undo();
  undo();
  undo();
  redo();
  redo();
  redo();
  redo();
  undo();
  set_text(1, "eins");
  edit();
  redo();
  undo();
  clear(&done);
  clear(&undone);
  changecap_batch_close(&batch);
  OK(changecap_session_drop(&client, session, &fault));
  changecap_close(&client);
  return 0;
}
