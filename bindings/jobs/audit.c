/* Four threads commit on one server. Each commit captures its own changes, and a line of JSON for each is kept.
 * Replayed backwards, the lines give the rows of an earlier version. */
#include <changecap.h>
#include <inttypes.h>
#include <pthread.h>
#include <stdio.h>
#include <stdlib.h>

#define THREADS 4
#define TIMES 3
#define IDS 50

struct line { uint64_t version; char text[120]; };
static struct line lines[2 * 2 * THREADS * TIMES];
static size_t line_count;
static pthread_mutex_t line_lock = PTHREAD_MUTEX_INITIALIZER;

struct worker { changecap_client client; uint64_t session; int number, phase; };
struct state { int64_t value[IDS]; int present[IDS]; };

static void check(uint32_t status, int line){
  if( status == CHANGECAP_OK ) return;
  fprintf(stderr, "line %d: %s\n", line, changecap_errstr(status));
  exit(1);
}
#define OK(call) check(call, __LINE__)
static void right(int it, int line){ if( !it ) check(CHANGECAP_MISUSE, line); }
#define RIGHT(it) right(it, __LINE__)

/* A line for each change of one commit. */
static void write_lines(int thread, uint64_t version, changecap_capture *capture){
  changecap_iter it = CHANGECAP_CLOSED;
  changecap_change change;
  changecap_value id, value;
  changecap_fault fault;
  uint8_t blob[256];
  char old[24], new[24];
  size_t n;
  OK(changecap_capture_changeset(capture, CHANGECAP_KEYS_PLACES, blob, sizeof blob, &n));
  OK(changecap_iter_open(blob, n, &it, &fault));
  while( changecap_iter_next(&it) == CHANGECAP_ROW ){
    strcpy(old, "null");
    strcpy(new, "null");
    OK(changecap_iter_op(&it, &change));
    if( change.op != CHANGECAP_INSERT ){
      OK(changecap_iter_old(&it, 0, &id));
      OK(changecap_iter_old(&it, 1, &value));
      snprintf(old, sizeof old, "%" PRId64, value.number);
    }
    if( change.op != CHANGECAP_DELETE ){
      if( change.op == CHANGECAP_INSERT ) OK(changecap_iter_new(&it, 0, &id));
      OK(changecap_iter_new(&it, 1, &value));
      snprintf(new, sizeof new, "%" PRId64, value.number);
    }
    RIGHT(pthread_mutex_lock(&line_lock) == 0);
    struct line *line = &lines[line_count++];
    line->version = version;
    snprintf(line->text, sizeof line->text,
             "{\"thread\":%d,\"version\":%" PRIu64 ",\"id\":%" PRId64 ",\"old\":%s,\"new\":%s}", thread, version,
             id.number, old, new);
    RIGHT(pthread_mutex_unlock(&line_lock) == 0);
  }
  changecap_iter_close(&it);
}

static void update(changecap_transaction *t, int64_t id, int64_t to){
  changecap_fault fault;
  uint8_t key[9], row[18];
  size_t n = changecap_put_undefined(row);
  n += changecap_put_int(row + n, to);
  OK(changecap_transaction_update(t, "t", 1, key, changecap_put_int(key, id), 0, row, n, CHANGECAP_DIRECT, &fault));
}

static void insert(changecap_transaction *t, int64_t id, int64_t value){
  changecap_fault fault;
  uint8_t row[18];
  size_t n = changecap_put_int(row, id);
  n += changecap_put_int(row + n, value);
  OK(changecap_transaction_insert(t, "t", 1, row, n, CHANGECAP_DIRECT, &fault));
}

/* Adds to the row 0, which all threads do, and changes a row of the thread's own. */
static void prepare(struct worker *own, int i, changecap_batch *batch){
  changecap_snapshot snapshot = CHANGECAP_CLOSED;
  changecap_transaction t = CHANGECAP_CLOSED;
  changecap_rows rows = CHANGECAP_CLOSED;
  changecap_value value;
  changecap_fault fault;
  uint8_t key[9];
  int k = own->number;
  OK(changecap_snapshot_open(&own->client, &snapshot));
  OK(changecap_begin(&snapshot, &t));
  changecap_snapshot_close(&snapshot);
  OK(changecap_transaction_get(&t, "t", 1, key, changecap_put_int(key, 0), 0, &rows, &fault));
  RIGHT(changecap_step(&rows) == CHANGECAP_ROW);
  OK(changecap_column(&rows, 1, &value));
  changecap_rows_close(&rows);
  update(&t, 0, value.number + (own->phase == 1 ? k : 10 * k));
  if( own->phase == 1 ) insert(&t, 10 * k + i, 100 * k + i);
  else if( i == 1 ) update(&t, 10 * k + 1, 0);
  else if( i == 2 )
    OK(changecap_transaction_delete(&t, "t", 1, key, changecap_put_int(key, 10 * k + 2), 0, CHANGECAP_DIRECT, &fault));
  else insert(&t, 10 * k + 4, 400 + k);
  OK(changecap_end(&t, batch));
}

static void *work(void *at){
  struct worker *own = at;
  changecap_batch batch = CHANGECAP_CLOSED;
  changecap_capture capture = CHANGECAP_CLOSED;
  changecap_fault fault;
  uint64_t version;
  uint32_t status;
  for(int i = 1; i <= TIMES; i++){
    do{
      prepare(own, i, &batch);
      status = changecap_commit_captured(&own->client, &batch, own->session, &version, &capture, &fault);
      changecap_batch_close(&batch);
    }while( status == CHANGECAP_REFUSED && fault.kind == CHANGECAP_E_STALE ); /* another thread was first */
    OK(status);
    write_lines(own->number, version, &capture);
    changecap_capture_close(&capture);
  }
  return NULL;
}

static void run_phase(changecap_client *client, uint64_t session, int phase){
  struct worker workers[THREADS];
  pthread_t threads[THREADS];
  for(int i = 0; i < THREADS; i++){
    workers[i] = (struct worker){ CHANGECAP_CLOSED, session, i + 1, phase };
    OK(changecap_join(&workers[i].client, client));
  }
  for(int i = 0; i < THREADS; i++) RIGHT(pthread_create(&threads[i], NULL, work, &workers[i]) == 0);
  for(int i = 0; i < THREADS; i++){
    RIGHT(pthread_join(threads[i], NULL) == 0);
    changecap_close(&workers[i].client);
  }
}

/* The rows now, and their version. */
static uint64_t read_state(changecap_client *client, struct state *state){
  changecap_snapshot snapshot = CHANGECAP_CLOSED;
  changecap_rows rows = CHANGECAP_CLOSED;
  changecap_value id, value;
  changecap_fault fault;
  uint64_t version;
  *state = (struct state){ { 0 }, { 0 } };
  OK(changecap_snapshot_open(client, &snapshot));
  OK(changecap_snapshot_version(&snapshot, &version));
  OK(changecap_scan(&snapshot, "t", 1, &rows, &fault));
  changecap_snapshot_close(&snapshot);
  while( changecap_step(&rows) == CHANGECAP_ROW ){
    OK(changecap_column(&rows, 0, &id));
    OK(changecap_column(&rows, 1, &value));
    state->value[id.number] = value.number;
    state->present[id.number] = 1;
  }
  changecap_rows_close(&rows);
  return version;
}

static void print_state(uint64_t version, const struct state *state){
  printf("version %" PRIu64 "\n", version);
  for(int id = 0; id < IDS; id++)
    if( state->present[id] ) printf("%d %" PRId64 "\n", id, state->value[id]);
}

static int by_version(const void *a, const void *b){
  const struct line *x = a, *y = b;
  return (x->version > y->version) - (x->version < y->version);
}

int main(void){
  static const uint8_t key[] = { 1, 0 };
  changecap_client client = CHANGECAP_CLOSED;
  changecap_batch batch = CHANGECAP_CLOSED;
  changecap_fault fault;
  struct state state, then;
  uint64_t version, session, middle;
  uint8_t row[18];
  size_t n = changecap_put_int(row, 0);
  n += changecap_put_int(row + n, 0);
  OK(changecap_open(&client));
  OK(changecap_create(&client, "t", 1, key, 2, &version, &fault));
  OK(changecap_batch_open(&batch));
  OK(changecap_insert(&batch, "t", 1, row, n, CHANGECAP_DIRECT, &fault));
  OK(changecap_commit(&client, &batch, &version, &fault));
  changecap_batch_close(&batch);
  OK(changecap_session_new(&client, &session, &fault));
  OK(changecap_session_attach(&client, session, "t", 1, &fault));

  run_phase(&client, session, 1);
  middle = read_state(&client, &then);
  run_phase(&client, session, 2);
  version = read_state(&client, &state);
  printf("lines %zu\n", line_count);
  print_state(version, &state);

  qsort(lines, line_count, sizeof *lines, by_version);
  for(size_t at = line_count; at > 0 && lines[at - 1].version > middle; at--){
    char old[24];
    int id;
    RIGHT(sscanf(lines[at - 1].text, "{\"thread\":%*d,\"version\":%*d,\"id\":%d,\"old\":%23[^,]", &id, old) == 2);
    state.present[id] = strcmp(old, "null") != 0;
    state.value[id] = state.present[id] ? atoll(old) : 0;
  }
  print_state(middle, &state);
  printf(memcmp(&state, &then, sizeof state) ? "another state than then\n" : "as it was then\n");
  changecap_close(&client);
  return 0;
}
