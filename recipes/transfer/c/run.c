/* Threads move money between accounts, by transactions that begin again on a conflict. ../README.md says how. */
#include <changecap.h>

#include <pthread.h>
#include <stdio.h>
#include <stdlib.h>

/* Ends the program unless a call does what it says. */
#define RIGHT(call) do{ if( (call) != CHANGECAP_OK ){ fprintf(stderr, "%s\n", #call); exit(1); } }while( 0 )

/* Reads the balance of an account, which the commit looks at again. */
static int64_t balance_of(changecap_transaction *transaction, int64_t account){
  changecap_rows rows = CHANGECAP_CLOSED;
  changecap_fault fault;
  changecap_value balance;
  uint8_t key[CHANGECAP_FIELD_MAX(0)];
  size_t m = changecap_put_int(key, account);
  RIGHT(changecap_transaction_get(transaction, "accounts", 8, key, m, 0, &rows, &fault));
  RIGHT(changecap_step(&rows) != CHANGECAP_ROW);
  RIGHT(changecap_column(&rows, 1, &balance));
  changecap_rows_close(&rows);
  return balance.number;
}

static void set_balance(changecap_transaction *transaction, int64_t account, int64_t balance){
  changecap_fault fault;
  uint8_t key[CHANGECAP_FIELD_MAX(0)], fields[2 * CHANGECAP_FIELD_MAX(0)];
  size_t m = changecap_put_int(key, account), n = changecap_put_undefined(fields);
  n += changecap_put_int(fields + n, balance);
  RIGHT(changecap_transaction_update(transaction, "accounts", 8, key, m, 0, fields, n, CHANGECAP_DIRECT, &fault));
}

/* Moves the amount, or as much of it as there is, and answers how much that was. It begins again where another thread
 * has changed one of the two accounts before the commit. */
static int64_t transfer(changecap_client *client, int64_t from, int64_t to, int64_t amount){
  changecap_snapshot snapshot = CHANGECAP_CLOSED;
  changecap_transaction transaction = CHANGECAP_CLOSED;
  changecap_batch batch = CHANGECAP_CLOSED;
  changecap_fault fault;
  int64_t moved;
  uint64_t version;
  uint32_t status;
  do{
    RIGHT(changecap_snapshot_open(client, &snapshot));
    RIGHT(changecap_begin(&snapshot, &transaction));
    changecap_snapshot_close(&snapshot);
    int64_t balance = balance_of(&transaction, from), other = balance_of(&transaction, to);
    moved = amount < balance ? amount : balance;
    set_balance(&transaction, from, balance - moved);
    set_balance(&transaction, to, other + moved);
    RIGHT(changecap_end(&transaction, &batch));
    status = changecap_commit(client, &batch, &version, &fault);
    changecap_batch_close(&batch);
  }while( status == CHANGECAP_REFUSED && fault.kind == CHANGECAP_E_STALE );
  RIGHT(status);
  return moved;
}

/* ---- A run ---- */

enum { ACCOUNTS = 10, THREADS = 8, TRANSFERS = 200 };

/* A thread, and what it has found in snapshots: how many, whether each sum is that of the first one, and whether no
 * balance is below 0. */
typedef struct worker {
  changecap_client client;
  int number, snapshots, has_sum, has_money;
} worker;

/* The sum of a snapshot. No commit is in it by half, and reading it waits for none. */
static int64_t sum_of(changecap_client *client, int *has_money){
  changecap_snapshot snapshot = CHANGECAP_CLOSED;
  changecap_rows rows = CHANGECAP_CLOSED;
  changecap_fault fault;
  changecap_value balance;
  int64_t sum = 0;
  RIGHT(changecap_snapshot_open(client, &snapshot));
  RIGHT(changecap_scan(&snapshot, "accounts", 8, &rows, &fault));
  while( changecap_step(&rows) == CHANGECAP_ROW ){
    RIGHT(changecap_column(&rows, 1, &balance));
    *has_money &= balance.number >= 0;
    sum += balance.number;
  }
  changecap_rows_close(&rows);
  changecap_snapshot_close(&snapshot);
  return sum;
}

static void *work(void *given){
  worker *own = given;
  for(int i = 0; i < TRANSFERS; i++){
    int from = (own->number + i) % ACCOUNTS;
    transfer(&own->client, from, (from + 1 + i % (ACCOUNTS - 1)) % ACCOUNTS, 1 + i % 90);
    own->has_sum &= sum_of(&own->client, &own->has_money) == 100 * ACCOUNTS;
    own->snapshots++;
  }
  changecap_close(&own->client);
  return NULL;
}

int main(void){
  changecap_client client = CHANGECAP_CLOSED;
  changecap_snapshot snapshot = CHANGECAP_CLOSED;
  worker workers[THREADS], all = { CHANGECAP_CLOSED, 0, 0, 1, 1 };
  pthread_t threads[THREADS];
  changecap_fault fault;
  uint64_t version;
  char text[64];
  RIGHT(changecap_open(&client));
  RIGHT(changecap_create(&client, "accounts", 8, "\1\0", 2, &version, &fault));
  for(int i = 0; i < ACCOUNTS; i++){
    snprintf(text, sizeof text, "commit insert accounts (%d,100)", i);
    RIGHT(changecap_call(&client, text, strlen(text), &fault));
  }
  for(int i = 0; i < THREADS; i++){
    workers[i] = (worker){ CHANGECAP_CLOSED, i, 0, 1, 1 };
    RIGHT(changecap_join(&workers[i].client, &client));
    if( pthread_create(&threads[i], NULL, work, &workers[i]) != 0 ) return 1;
  }
  for(int i = 0; i < THREADS; i++){
    pthread_join(threads[i], NULL);
    all.snapshots += workers[i].snapshots;
    all.has_sum &= workers[i].has_sum;
    all.has_money &= workers[i].has_money;
  }
  changecap_front(&client, &version);
  RIGHT(changecap_snapshot_open(&client, &snapshot));
  changecap_snapshot_version(&snapshot, &version);
  changecap_snapshot_close(&snapshot);
  printf("%d transfers by %d threads\n", (int)version - 1 - ACCOUNTS, THREADS);
  if( all.has_sum ) printf("%d snapshots, and the sum of each is %d\n", all.snapshots, 100 * ACCOUNTS);
  if( all.has_money ) puts("no account is below 0");
  changecap_close(&client);
}
