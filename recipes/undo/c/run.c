/* Undo and redo of what is done in tables, by changesets and their inverses. ../README.md says how. */
#include <changecap.h>

#include <stdio.h>
#include <stdlib.h>

/* Ends the program unless a call does what it says. */
#define RIGHT(call) do{ if( (call) != CHANGECAP_OK ){ fprintf(stderr, "%s\n", #call); exit(1); } }while( 0 )

enum { STEPS = 100 };

/* What a step has changed. */
typedef struct blob {
  uint8_t *at;
  size_t n;
} blob;

/* Tables with undo and redo. Of the steps that are known the first ones are done, and the others undone. */
typedef struct document {
  changecap_client client;
  uint64_t session;
  size_t done, known;
  blob steps[STEPS];
} document;

/* Commits operations that are undone together. */
static void step(document *of, changecap_batch *batch){
  changecap_capture capture = CHANGECAP_CLOSED;
  changecap_fault fault;
  blob made = { NULL, 0 };
  uint64_t version;
  RIGHT(changecap_commit_captured(&of->client, batch, of->session, &version, &capture, &fault));
  changecap_capture_changeset(&capture, CHANGECAP_KEYS_PLACES, NULL, 0, &made.n);
  RIGHT((made.at = malloc(made.n + 1)) == NULL);
  RIGHT(changecap_capture_changeset(&capture, CHANGECAP_KEYS_PLACES, made.at, made.n, &made.n));
  changecap_capture_close(&capture);
  while( of->known > of->done ) free(of->steps[--of->known].at);
  RIGHT(of->known == STEPS);
  of->steps[of->known++] = made;
  of->done = of->known;
}

/* Applies a changeset, which is no step itself. It is refused where others have changed the same rows since. */
static uint32_t apply(document *of, const void *changeset, size_t n){
  changecap_report report;
  changecap_fault fault;
  uint32_t flag;
  RIGHT(changecap_session_enable(&of->client, of->session, CHANGECAP_OFF, &flag, &fault));
  uint32_t status = changecap_apply(&of->client, changeset, n, CHANGECAP_ABORT, CHANGECAP_ABORT, CHANGECAP_ABORT,
                                    &report, &fault);
  RIGHT(changecap_session_enable(&of->client, of->session, CHANGECAP_ON, &flag, &fault));
  return status;
}

/* Undo a step, and make one again. DONE where there is none. */
static uint32_t undo(document *of){
  changecap_fault fault;
  if( of->done == 0 ) return CHANGECAP_DONE;
  blob last = of->steps[of->done - 1], inverse = { malloc(last.n + 1), last.n };
  RIGHT(changecap_invert(last.at, last.n, CHANGECAP_KEYS_PLACES, inverse.at, last.n, &inverse.n, &fault));
  uint32_t status = apply(of, inverse.at, inverse.n);
  if( status == CHANGECAP_OK ) of->done--;
  free(inverse.at);
  return status;
}

static uint32_t redo(document *of){
  if( of->done == of->known ) return CHANGECAP_DONE;
  uint32_t status = apply(of, of->steps[of->done].at, of->steps[of->done].n);
  if( status == CHANGECAP_OK ) of->done++;
  return status;
}

/* ---- A run ---- */

/* Puts an operation last in the batch: an insert, an update, or with no text a delete. */
static void put(changecap_batch *batch, uint32_t op, int64_t id, const char *text){
  changecap_fault fault;
  uint8_t key[CHANGECAP_FIELD_MAX(0)], row[64];
  size_t m = changecap_put_int(key, id);
  size_t n = op == CHANGECAP_INSERT ? changecap_put_int(row, id) : changecap_put_undefined(row);
  n += changecap_put_text(row + n, text, strlen(text));
  RIGHT(op == CHANGECAP_INSERT   ? changecap_insert(batch, "lines", 5, row, n, CHANGECAP_DIRECT, &fault)
        : op == CHANGECAP_UPDATE ? changecap_update(batch, "lines", 5, key, m, 0, row, n, CHANGECAP_DIRECT, &fault)
                                 : changecap_delete(batch, "lines", 5, key, m, 0, CHANGECAP_DIRECT, &fault));
}

static void show(document *of, const char *word){
  changecap_snapshot snapshot = CHANGECAP_CLOSED;
  changecap_rows rows = CHANGECAP_CLOSED;
  changecap_fault fault;
  changecap_value id;
  char text[16];
  size_t n;
  RIGHT(changecap_snapshot_open(&of->client, &snapshot));
  RIGHT(changecap_scan(&snapshot, "lines", 5, &rows, &fault));
  printf("%s:", word);
  for(const char *between = ""; changecap_step(&rows) == CHANGECAP_ROW; between = ","){
    RIGHT(changecap_column(&rows, 0, &id));
    RIGHT(changecap_column_bytes(&rows, 1, text, sizeof text, &n));
    printf("%s %lld %.*s", between, (long long)id.number, (int)n, text);
  }
  putchar('\n');
  changecap_rows_close(&rows);
  changecap_snapshot_close(&snapshot);
}

static void try_it(document *of, const char *word, uint32_t status){
  if( status == CHANGECAP_OK ) show(of, word);
  else if( status == CHANGECAP_DONE ) printf("%s: nothing to %s\n", word, word);
  else if( status == CHANGECAP_REFUSED ) printf("%s: refused\n", word);
}

int main(void){
  static document document = { .client = CHANGECAP_CLOSED };
  changecap_batch batch = CHANGECAP_CLOSED;
  changecap_fault fault;
  uint64_t version;
  RIGHT(changecap_open(&document.client));
  RIGHT(changecap_create(&document.client, "lines", 5, "\1\0", 2, &version, &fault));
  RIGHT(changecap_session_new(&document.client, &document.session, &fault));
  RIGHT(changecap_session_attach_all(&document.client, document.session, &fault));
  RIGHT(changecap_batch_open(&batch));
  put(&batch, CHANGECAP_INSERT, 1, "one");
  step(&document, &batch);
  put(&batch, CHANGECAP_INSERT, 2, "two");
  step(&document, &batch);
  show(&document, "written");
  put(&batch, CHANGECAP_UPDATE, 1, "ONE");
  put(&batch, CHANGECAP_DELETE, 2, "");
  step(&document, &batch);
  show(&document, "changed");
  for(int i = 0; i < 2; i++) try_it(&document, "undo", undo(&document));
  for(int i = 0; i < 3; i++) try_it(&document, "redo", redo(&document));
  try_it(&document, "undo", undo(&document));
  put(&batch, CHANGECAP_INSERT, 3, "three");
  step(&document, &batch);
  show(&document, "changed");
  try_it(&document, "redo", redo(&document));
  put(&batch, CHANGECAP_UPDATE, 3, "drei");
  RIGHT(changecap_commit(&document.client, &batch, &version, &fault));
  show(&document, "of another");
  try_it(&document, "undo", undo(&document));
  show(&document, "rows");
  while( document.known > 0 ) free(document.steps[--document.known].at);
  changecap_batch_close(&batch);
  changecap_close(&document.client);
}
