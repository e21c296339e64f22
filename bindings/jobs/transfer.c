/* Two threads move money between accounts, by transactions that begin again on a conflict. A third thread takes
 * snapshots: in each the sum is the same. */
#include <changecap.h>
#include <inttypes.h>
#include <pthread.h>
#include <stdatomic.h>
#include <stdio.h>
#include <stdlib.h>

#define ACCOUNTS 5
#define TRANSFERS 100

struct mover { changecap_client client; int from, first; int64_t amount; };
struct watcher { changecap_client client; atomic_int *is_over; long taken, wrong; };

static void check(uint32_t status, int line){
  if( status == CHANGECAP_OK ) return;
  fprintf(stderr, "line %d: %s\n", line, changecap_errstr(status));
  exit(1);
}
#define OK(call) check(call, __LINE__)
static void right(int it, int line){ if( !it ) check(CHANGECAP_MISUSE, line); }
#define RIGHT(it) right(it, __LINE__)

/* Adds to an account, within a transaction. */
static void add(changecap_transaction *t, int account, int64_t more){
  changecap_rows rows = CHANGECAP_CLOSED;
  changecap_value balance;
  changecap_fault fault;
  uint8_t key[9], fields[10];
  size_t m = changecap_put_int(key, account), n = changecap_put_undefined(fields);
  OK(changecap_transaction_get(t, "accounts", 8, key, m, 0, &rows, &fault));
  RIGHT(changecap_step(&rows) == CHANGECAP_ROW);
  OK(changecap_column(&rows, 1, &balance));
  changecap_rows_close(&rows);
  n += changecap_put_int(fields + n, balance.number + more);
  OK(changecap_transaction_update(t, "accounts", 8, key, m, 0, fields, n, CHANGECAP_DIRECT, &fault));
}

static void transfer(changecap_client *client, int from, int to, int64_t amount){
  changecap_snapshot snapshot = CHANGECAP_CLOSED;
  changecap_transaction t = CHANGECAP_CLOSED;
  changecap_batch batch = CHANGECAP_CLOSED;
  changecap_fault fault;
  uint64_t version;
  uint32_t status;
  do{
    OK(changecap_snapshot_open(client, &snapshot));
    OK(changecap_begin(&snapshot, &t));
    changecap_snapshot_close(&snapshot);
    add(&t, from, -amount);
    add(&t, to, amount);
    OK(changecap_end(&t, &batch));
    status = changecap_commit(client, &batch, &version, &fault);
    changecap_batch_close(&batch);
  }while( status == CHANGECAP_REFUSED && fault.kind == CHANGECAP_E_STALE ); /* the other thread was first */
  OK(status);
}

static void *move(void *at){
  struct mover *own = at;
  for(int i = 0; i < TRANSFERS; i++) transfer(&own->client, own->from, own->first + i % 4, own->amount);
  return NULL;
}

static int64_t sum_of(changecap_client *client, int is_printed){
  changecap_snapshot snapshot = CHANGECAP_CLOSED;
  changecap_rows rows = CHANGECAP_CLOSED;
  changecap_value id, balance;
  changecap_fault fault;
  int64_t sum = 0;
  OK(changecap_snapshot_open(client, &snapshot));
  OK(changecap_scan(&snapshot, "accounts", 8, &rows, &fault));
  changecap_snapshot_close(&snapshot);
  while( changecap_step(&rows) == CHANGECAP_ROW ){
    OK(changecap_column(&rows, 0, &id));
    OK(changecap_column(&rows, 1, &balance));
    if( is_printed ) printf("%" PRId64 " %" PRId64 "\n", id.number, balance.number);
    sum += balance.number;
  }
  changecap_rows_close(&rows);
  return sum;
}

static void *watch(void *at){
  struct watcher *own = at;
  do{
    own->wrong += sum_of(&own->client, 0) != 5000;
    own->taken++;
  }while( !atomic_load(own->is_over) );
  return NULL;
}

int main(void){
  static const uint8_t columns[] = { 1, 0 };
  changecap_client client = CHANGECAP_CLOSED;
  changecap_batch batch = CHANGECAP_CLOSED;
  changecap_snapshot snapshot = CHANGECAP_CLOSED;
  changecap_fault fault;
  atomic_int is_over = 0;
  struct mover movers[] = { { CHANGECAP_CLOSED, 1, 2, 2 }, { CHANGECAP_CLOSED, 5, 1, 1 } };
  struct watcher watcher = { CHANGECAP_CLOSED, &is_over, 0, 0 };
  pthread_t threads[3];
  uint64_t version;
  uint8_t row[18];
  OK(changecap_open(&client));
  OK(changecap_create(&client, "accounts", 8, columns, 2, &version, &fault));
  OK(changecap_batch_open(&batch));
  for(int id = 1; id <= ACCOUNTS; id++){
    size_t n = changecap_put_int(row, id);
    n += changecap_put_int(row + n, 1000);
    OK(changecap_insert(&batch, "accounts", 8, row, n, CHANGECAP_DIRECT, &fault));
  }
  OK(changecap_commit(&client, &batch, &version, &fault));
  changecap_batch_close(&batch);

  OK(changecap_join(&watcher.client, &client));
  for(int i = 0; i < 2; i++) OK(changecap_join(&movers[i].client, &client));
  RIGHT(pthread_create(&threads[2], NULL, watch, &watcher) == 0);
  for(int i = 0; i < 2; i++) RIGHT(pthread_create(&threads[i], NULL, move, &movers[i]) == 0);
  for(int i = 0; i < 2; i++){
    RIGHT(pthread_join(threads[i], NULL) == 0);
    changecap_close(&movers[i].client);
  }
  atomic_store(&is_over, 1);
  RIGHT(pthread_join(threads[2], NULL) == 0);
  changecap_close(&watcher.client);

  OK(changecap_snapshot_open(&client, &snapshot));
  OK(changecap_snapshot_version(&snapshot, &version));
  changecap_snapshot_close(&snapshot);
  printf("transfers %d, version %" PRIu64 "\n", 2 * TRANSFERS, version);
  printf("sum %" PRId64 "\n", sum_of(&client, 1));
  printf("%s, %ld with another sum\n", watcher.taken > 0 ? "snapshots" : "no snapshot", watcher.wrong);
  changecap_close(&client);
  return 0;
}
