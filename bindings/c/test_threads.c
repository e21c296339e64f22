/*
 * Tests of one history that several threads use: test_threads CALLS
 *
 * Four threads with a client each make CALLS calls in all: they commit, read snapshots, move money between accounts in
 * transactions, and capture by restarting one session. What each sees is checked as it goes, and afterwards that all
 * that was captured, in its order, makes the tables of another history the same. The last line is 'N passed, M failed',
 * before it is what was done.
 */
#define _POSIX_C_SOURCE 200809L
#include "changecap.h"

#include <pthread.h>
#include <sched.h>
#include <stdio.h>
#include <stdlib.h>

enum { THREADS = 4, ACCOUNTS = 32, MONEY = 1000, CLIENTS = 64, NOTES = 200 };

/* ---- Counting ---- */

static pthread_mutex_t counting = PTHREAD_MUTEX_INITIALIZER;
static long passed, failed;

/* What a thread, or the main program, has seen hold and fail. */
typedef struct tally {
  long passed, failed;
} tally;

static void count(tally *of, int holds, int line, const char *what){
  if( holds ){
    of->passed++;
  }else if( ++of->failed <= 10 ){
    fprintf(stderr, "%s:%d: %s\n", __FILE__, line, what);
  }
}

#define CHECK(of, holds) count(of, (holds) != 0, __LINE__, #holds)

static void add_tally(const tally *of){
  pthread_mutex_lock(&counting);
  passed += of->passed;
  failed += of->failed;
  pthread_mutex_unlock(&counting);
}

/* ---- Records ---- */

typedef struct record {
  size_t n;
  uint8_t at[4 * CHANGECAP_FIELD_MAX(8)];
} record;

static record of_numbers(int64_t first, int64_t second){
  record made;
  made.n = changecap_put_int(made.at, first);
  made.n += changecap_put_int(made.at + made.n, second);
  return made;
}

static record of_number(int64_t number){
  record made;
  made.n = changecap_put_int(made.at, number);
  return made;
}

/* The new balance of an account. */
static record of_balance(int64_t balance){
  record made;
  made.n = changecap_put_undefined(made.at);
  made.n += changecap_put_int(made.at + made.n, balance);
  return made;
}

/* A note of a thread, with its number, and a text. */
static record of_note(int64_t thread, int64_t number, const char *text){
  record made = of_numbers(thread, number);
  made.n += changecap_put_text(made.at + made.n, text, strlen(text));
  return made;
}

/* ---- Captures ---- */

/* A changeset, and how many events the history had when it was captured. */
typedef struct captured {
  uint64_t event;
  uint8_t *at;
  size_t n;
} captured;

typedef struct list {
  captured *at;
  size_t n, room;
} list;

static void put(list *to, captured one){
  if( to->n == to->room ){
    to->room = to->room ? 2 * to->room : 64;
    to->at = realloc(to->at, to->room * sizeof *to->at);
    if( to->at == NULL ) abort();
  }
  to->at[to->n++] = one;
}

static int by_event(const void *first, const void *second){
  uint64_t one = ((const captured *)first)->event, other = ((const captured *)second)->event;
  return (one > other) - (one < other);
}

/* The bytes of a capture, which is closed. */
static captured bytes_of(tally *of, changecap_capture *capture){
  captured made = { 0, NULL, 0 };
  uint32_t status;
  status = changecap_capture_changeset(capture, CHANGECAP_KEYS_PLACES, NULL, 0, &made.n);
  if( status == CHANGECAP_ROOM ){
    made.at = malloc(made.n);
    status = changecap_capture_changeset(capture, CHANGECAP_KEYS_PLACES, made.at, made.n, &made.n);
  }
  CHECK(of, status == CHANGECAP_OK);
  changecap_capture_close(capture);
  return made;
}

/* ---- The threads ---- */

typedef struct worker {
  tally of;
  changecap_client client;
  int64_t number;      /* of the thread, from 0 */
  long calls, wanted;  /* made, and to be made */
  long commits, again, captures, busy;
  int64_t notes;       /* made; the last NOTES of them are there */
  uint64_t version;    /* of the last commit */
  uint64_t session, state;
  list captured;
} worker;

static uint64_t random_below(worker *own, uint64_t limit){
  own->state ^= own->state << 13;
  own->state ^= own->state >> 7;
  own->state ^= own->state << 17;
  return own->state % limit;
}

/* Whether the next call is made by its form that does not wait. */
static int is_impatient(worker *own){
  return random_below(own, 4) == 0;
}

static uint32_t commit(worker *own, changecap_batch *batch, changecap_fault *fault){
  uint64_t version = 0;
  uint32_t status;
  own->calls++;
  if( is_impatient(own) ){
    while( (status = changecap_try_commit(&own->client, batch, &version, fault)) == CHANGECAP_BUSY ){
      own->busy++;
      sched_yield();
    }
  }else{
    status = changecap_commit(&own->client, batch, &version, fault);
  }
  if( status == CHANGECAP_OK ){
    CHECK(&own->of, version > own->version);
    own->version = version;
    own->commits++;
  }
  return status;
}

static changecap_snapshot snapshot_of(worker *own){
  changecap_snapshot snapshot = CHANGECAP_CLOSED;
  uint32_t status;
  own->calls++;
  if( is_impatient(own) ){
    while( (status = changecap_try_snapshot_open(&own->client, &snapshot)) == CHANGECAP_BUSY ){
      own->busy++;
      sched_yield();
    }
  }else{
    status = changecap_snapshot_open(&own->client, &snapshot);
  }
  CHECK(&own->of, status == CHANGECAP_OK);
  return snapshot;
}

/* Adds a note, changes the one before it, and deletes one that is old. The batch is a new one, or one that was
 * committed before. */
static void write_notes(worker *own, changecap_batch *batch){
  changecap_fault fault = { 0, 0 };
  record note = of_note(own->number, own->notes, "new"), before = of_numbers(own->number, own->notes - 1);
  record old = of_numbers(own->number, own->notes - NOTES), set;
  set.n = changecap_put_undefined(set.at);
  set.n += changecap_put_undefined(set.at + set.n);
  set.n += changecap_put_text(set.at + set.n, "changed", 7);
  uint32_t status = changecap_insert(batch, "notes", 5, note.at, note.n, CHANGECAP_DIRECT, &fault);
  CHECK(&own->of, status == CHANGECAP_OK);
  if( own->notes > 0 ){
    status = changecap_update(batch, "notes", 5, before.at, before.n, 0, set.at, set.n, CHANGECAP_CASCADE, &fault);
    CHECK(&own->of, status == CHANGECAP_OK);
  }
  if( own->notes >= NOTES ){
    status = changecap_delete(batch, "notes", 5, old.at, old.n, 0, CHANGECAP_DIRECT, &fault);
    CHECK(&own->of, status == CHANGECAP_OK);
  }
  own->calls += 3;
  CHECK(&own->of, commit(own, batch, &fault) == CHANGECAP_OK);
  own->notes++;
}

/* The sum over the accounts, which stays as it is. */
static void sum_stays(worker *own, changecap_snapshot *snapshot){
  changecap_rows rows = CHANGECAP_CLOSED;
  changecap_fault fault;
  changecap_value value;
  int64_t sum = 0, number = 0;
  CHECK(&own->of, changecap_scan(snapshot, "accounts", 8, &rows, &fault) == CHANGECAP_OK);
  for(; changecap_step(&rows) == CHANGECAP_ROW; number++){
    changecap_column(&rows, 1, &value);
    sum += value.number;
  }
  changecap_rows_close(&rows);
  own->calls += 2 + 2 * number;
  CHECK(&own->of, number == ACCOUNTS && sum == ACCOUNTS * MONEY);
}

/* Whether a snapshot has the thread's note of a number, as it was left. */
static int has_note(worker *own, changecap_snapshot *snapshot, int64_t number, const char *text){
  changecap_rows rows = CHANGECAP_CLOSED;
  changecap_fault fault;
  uint8_t made[64];
  size_t len = 0;
  record key = of_numbers(own->number, number), wanted = of_note(own->number, number, text);
  CHECK(&own->of, changecap_get(snapshot, "notes", 5, key.at, key.n, 0, &rows, &fault) == CHANGECAP_OK);
  int is_there = changecap_step(&rows) == CHANGECAP_ROW;
  if( is_there ){
    CHECK(&own->of, changecap_row(&rows, made, sizeof made, &len) == CHANGECAP_OK);
    is_there = len == wanted.n && !memcmp(made, wanted.at, len);
  }
  changecap_rows_close(&rows);
  own->calls += 4;
  return is_there;
}

/* A snapshot has all that its thread has committed, and no more of its notes. */
static void read_snapshot(worker *own){
  changecap_snapshot snapshot = snapshot_of(own);
  uint64_t version = 0;
  CHECK(&own->of, changecap_snapshot_version(&snapshot, &version) == CHANGECAP_OK && version >= own->version);
  sum_stays(own, &snapshot);
  if( own->notes > 0 ) CHECK(&own->of, has_note(own, &snapshot, own->notes - 1, "new"));
  if( own->notes > 1 ) CHECK(&own->of, has_note(own, &snapshot, own->notes - 2, "changed"));
  if( own->notes > NOTES ) CHECK(&own->of, !has_note(own, &snapshot, own->notes - 1 - NOTES, "changed"));
  CHECK(&own->of, !has_note(own, &snapshot, own->notes, "new"));
  changecap_snapshot_close(&snapshot);
  own->calls += 2;
}

/* The balance of an account, as a transaction reads it. */
static int64_t balance_of(worker *own, changecap_transaction *transaction, int64_t account){
  changecap_rows rows = CHANGECAP_CLOSED;
  changecap_fault fault;
  changecap_value value = { 0, 0, 0 };
  record key = of_number(account);
  CHECK(&own->of, changecap_transaction_get(transaction, "accounts", 8, key.at, key.n, 0, &rows, &fault)
                  == CHANGECAP_OK);
  CHECK(&own->of, changecap_step(&rows) == CHANGECAP_ROW && changecap_column(&rows, 1, &value) == CHANGECAP_OK);
  changecap_rows_close(&rows);
  own->calls += 4;
  return value.number;
}

static void set_balance(worker *own, changecap_transaction *transaction, int64_t account, int64_t balance){
  changecap_fault fault;
  record key = of_number(account), fields = of_balance(balance);
  CHECK(&own->of, changecap_transaction_update(transaction, "accounts", 8, key.at, key.n, 0, fields.at, fields.n,
                                               CHANGECAP_DIRECT, &fault) == CHANGECAP_OK);
  own->calls++;
}

/* Moves an amount from one account to another, as the batch of a transaction that has a detour. */
static changecap_batch moved(worker *own, int64_t from, int64_t to, int64_t amount){
  changecap_snapshot snapshot = snapshot_of(own);
  changecap_transaction transaction = CHANGECAP_CLOSED;
  changecap_batch batch = CHANGECAP_CLOSED;
  changecap_fault fault;
  uint64_t mark;
  CHECK(&own->of, changecap_begin(&snapshot, &transaction) == CHANGECAP_OK);
  changecap_snapshot_close(&snapshot);
  int64_t left = balance_of(own, &transaction, from) - amount;
  set_balance(own, &transaction, from, left);
  CHECK(&own->of, changecap_savepoint(&transaction, &mark, &fault) == CHANGECAP_OK);
  set_balance(own, &transaction, from, -1);
  CHECK(&own->of, changecap_rollback_to(&transaction, mark, &fault) == CHANGECAP_OK);
  CHECK(&own->of, balance_of(own, &transaction, from) == left);
  set_balance(own, &transaction, to, balance_of(own, &transaction, to) + amount);
  CHECK(&own->of, changecap_end(&transaction, &batch) == CHANGECAP_OK);
  own->calls += 5;
  return batch;
}

/* Where a batch was refused, the item is one of the two accounts, since nothing else was looked at that changes. */
static void names_account(worker *own, changecap_batch *batch, size_t at, int64_t from, int64_t to){
  changecap_item item = { 0, 0 };
  uint8_t key[32];
  size_t len = 0;
  record one = of_number(from), other = of_number(to);
  CHECK(&own->of, changecap_batch_item(batch, at, &item) == CHANGECAP_OK && item.kind == CHANGECAP_ITEM_ROW);
  CHECK(&own->of, changecap_batch_item_key(batch, at, key, sizeof key, &len) == CHANGECAP_OK && len == one.n);
  CHECK(&own->of, !memcmp(key, one.at, one.n) || !memcmp(key, other.at, other.n));
  own->calls += 2;
}

/* Moves money between two accounts, and begins again where another thread has changed one of them. */
static void move_money(worker *own){
  int64_t from = (int64_t)random_below(own, ACCOUNTS);
  int64_t to = (from + 1 + (int64_t)random_below(own, ACCOUNTS - 1)) % ACCOUNTS;
  int64_t amount = (int64_t)random_below(own, 50);
  for(;;){
    changecap_fault fault = { 0, 0 };
    changecap_batch batch = moved(own, from, to, amount);
    uint32_t status = commit(own, &batch, &fault);
    int is_stale = status == CHANGECAP_REFUSED && fault.kind == 11;
    CHECK(&own->of, status == CHANGECAP_OK || is_stale);
    if( is_stale ) names_account(own, &batch, fault.at, from, to);
    changecap_batch_close(&batch);
    own->calls++;
    if( !is_stale ) return;
    own->again++;
  }
}

/* Takes what the session has captured since it was restarted, and the event of that. */
static void restart(worker *own){
  changecap_capture capture = CHANGECAP_CLOSED;
  changecap_fault fault;
  uint64_t event = 0;
  CHECK(&own->of, changecap_session_restart(&own->client, own->session, &capture, &fault) == CHANGECAP_OK);
  CHECK(&own->of, changecap_seen(&own->client, &event) == CHANGECAP_OK);
  captured made = bytes_of(&own->of, &capture);
  made.event = event;
  put(&own->captured, made);
  own->captures++;
  own->calls += 5;
}

/* A further client comes and goes. It has seen what the thread's own has, and then all. */
static void visit(worker *own){
  changecap_client visitor = CHANGECAP_CLOSED;
  uint64_t before = 0, after = 0;
  CHECK(&own->of, changecap_seen(&own->client, &before) == CHANGECAP_OK);
  CHECK(&own->of, changecap_join(&visitor, &own->client) == CHANGECAP_OK);
  CHECK(&own->of, changecap_seen(&visitor, &after) == CHANGECAP_OK && after >= before);
  CHECK(&own->of, changecap_front(&visitor, &after) == CHANGECAP_OK && after >= before);
  CHECK(&own->of, changecap_meet(&own->client, &visitor) == CHANGECAP_OK);
  CHECK(&own->of, changecap_seen(&own->client, &before) == CHANGECAP_OK && before == after);
  changecap_close(&visitor);
  own->calls += 7;
}

static void *work(void *given){
  worker *own = given;
  changecap_batch batch = CHANGECAP_CLOSED;
  CHECK(&own->of, changecap_batch_open(&batch) == CHANGECAP_OK);
  while( own->calls < own->wanted ){
    switch( random_below(own, 9) ){
      case 0: case 1: case 2: write_notes(own, &batch); break;
      case 3: case 4: read_snapshot(own); break;
      case 5: case 6: move_money(own); break;
      case 7: restart(own); break;
      default: visit(own);
    }
  }
  changecap_batch_close(&batch);
  add_tally(&own->of);
  return NULL;
}

/* Commits, one right behind the other, of batches without operations. */
static void *only_commit(void *given){
  worker *own = given;
  changecap_batch batch = CHANGECAP_CLOSED;
  changecap_fault fault;
  CHECK(&own->of, changecap_batch_open(&batch) == CHANGECAP_OK);
  while( own->calls < own->wanted ) CHECK(&own->of, commit(own, &batch, &fault) == CHANGECAP_OK);
  changecap_batch_close(&batch);
  changecap_close(&own->client);
  add_tally(&own->of);
  return NULL;
}

/* Whether a capture has one change, the insert of this note. It is closed. */
static int has_only(changecap_capture *capture, tally *of, const record *note){
  captured made = bytes_of(of, capture);
  changecap_iter it = CHANGECAP_CLOSED;
  changecap_fault fault;
  changecap_change change;
  changecap_value thread, number;
  record key;
  CHECK(of, changecap_iter_open(made.at, made.n, &it, &fault) == CHANGECAP_OK);
  int is_one = changecap_iter_next(&it) == CHANGECAP_ROW && changecap_iter_op(&it, &change) == CHANGECAP_OK
               && change.op == CHANGECAP_INSERT && changecap_iter_new(&it, 0, &thread) == CHANGECAP_OK
               && changecap_iter_new(&it, 1, &number) == CHANGECAP_OK && changecap_iter_next(&it) == CHANGECAP_DONE;
  changecap_iter_close(&it);
  free(made.at);
  if( !is_one ) return 0;
  key = of_numbers(thread.number, number.number);
  return key.n <= note->n && !memcmp(key.at, note->at, key.n);
}

/* Commits a note at a time, each with the capture that belongs to it. */
static void *commit_and_capture(void *given){
  worker *own = given;
  changecap_batch batch = CHANGECAP_CLOSED;
  changecap_capture capture = CHANGECAP_CLOSED;
  changecap_fault fault;
  uint64_t version, captured_at;
  CHECK(&own->of, changecap_batch_open(&batch) == CHANGECAP_OK);
  for(; own->calls < own->wanted; own->calls += 4, own->notes++){
    record note = of_note(own->number, own->notes, "new");
    CHECK(&own->of, changecap_insert(&batch, "notes", 5, note.at, note.n, CHANGECAP_DIRECT, &fault) == CHANGECAP_OK);
    CHECK(&own->of, changecap_commit_captured(&own->client, &batch, own->session, &version, &capture, &fault)
                    == CHANGECAP_OK);
    CHECK(&own->of, changecap_capture_version(&capture, &captured_at) == CHANGECAP_OK && captured_at == version);
    CHECK(&own->of, has_only(&capture, &own->of, &note));
  }
  changecap_batch_close(&batch);
  changecap_close(&own->client);
  add_tally(&own->of);
  return NULL;
}

/* A thread that ends between two calls and leaves its client as it is. */
static void *end_early(void *given){
  worker *own = given;
  changecap_batch batch = CHANGECAP_CLOSED;
  CHECK(&own->of, changecap_batch_open(&batch) == CHANGECAP_OK);
  write_notes(own, &batch);
  changecap_batch_close(&batch);
  add_tally(&own->of);
  return NULL;
}

/* ---- One history ---- */

static void made_tables(tally *of, changecap_client *client){
  changecap_fault fault;
  uint64_t version;
  CHECK(of, changecap_create(client, "accounts", 8, "\1\0", 2, &version, &fault) == CHANGECAP_OK);
  CHECK(of, changecap_create(client, "notes", 5, "\1\1\0", 3, &version, &fault) == CHANGECAP_OK);
}

/* A session that has all changes, of which the money of each account is the first. */
static uint64_t begun(tally *of, changecap_client *client){
  changecap_batch batch = CHANGECAP_CLOSED;
  changecap_fault fault;
  uint64_t version, session = 0;
  made_tables(of, client);
  CHECK(of, changecap_session_new(client, &session, &fault) == CHANGECAP_OK);
  CHECK(of, changecap_session_attach_all(client, session, &fault) == CHANGECAP_OK);
  CHECK(of, changecap_batch_open(&batch) == CHANGECAP_OK);
  for(int64_t account = 0; account < ACCOUNTS; account++){
    record row = of_numbers(account, MONEY);
    CHECK(of, changecap_insert(&batch, "accounts", 8, row.at, row.n, CHANGECAP_DIRECT, &fault) == CHANGECAP_OK);
  }
  CHECK(of, changecap_commit(client, &batch, &version, &fault) == CHANGECAP_OK);
  changecap_batch_close(&batch);
  return session;
}

/* Concatenates neighbours until one is left. */
static captured concatenated(tally *of, list *all){
  while( all->n > 1 ){
    size_t n = 0;
    for(size_t at = 0; at < all->n; at += 2, n++){
      captured first = all->at[at], second = { 0, NULL, 0 };
      all->at[n] = first;
      if( at + 1 == all->n ) continue;
      second = all->at[at + 1];
      changecap_fault fault;
      size_t len = 0, by;
      uint8_t *made = malloc(first.n + second.n + 1);
      CHECK(of, changecap_concat(first.at, first.n, second.at, second.n, CHANGECAP_KEYS_PLACES, made,
                                 first.n + second.n, &len, &fault, &by) == CHANGECAP_OK);
      free(first.at);
      free(second.at);
      all->at[n] = (captured){ 0, made, len };
    }
    all->n = n;
  }
  return all->n ? all->at[0] : (captured){ 0, NULL, 0 };
}

static changecap_rows all_rows(tally *of, changecap_client *client, const char *table){
  changecap_snapshot snapshot = CHANGECAP_CLOSED;
  changecap_rows rows = CHANGECAP_CLOSED;
  changecap_fault fault;
  CHECK(of, changecap_snapshot_open(client, &snapshot) == CHANGECAP_OK);
  CHECK(of, changecap_scan(&snapshot, table, strlen(table), &rows, &fault) == CHANGECAP_OK);
  changecap_snapshot_close(&snapshot);
  return rows;
}

/* Whether two histories have the same rows in a table, and how many. */
static long same_rows(tally *of, changecap_client *client, changecap_client *copy, const char *table){
  changecap_rows rows = all_rows(of, client, table), others = all_rows(of, copy, table);
  long number = 0;
  for(;; number++){
    uint8_t one[64], other[64];
    size_t n = 0, m = 0;
    uint32_t status = changecap_step(&rows);
    CHECK(of, changecap_step(&others) == status);
    if( status != CHANGECAP_ROW ) break;
    CHECK(of, changecap_row(&rows, one, sizeof one, &n) == CHANGECAP_OK);
    CHECK(of, changecap_row(&others, other, sizeof other, &m) == CHANGECAP_OK);
    CHECK(of, n == m && !memcmp(one, other, n));
  }
  changecap_rows_close(&rows);
  changecap_rows_close(&others);
  return number;
}

/* All that was captured, in its order, makes the tables of another history what they are. */
static void makes_a_copy(tally *of, changecap_client *client, list *all){
  changecap_client copy = CHANGECAP_CLOSED;
  changecap_report report;
  changecap_fault fault = { 0, 0 };
  qsort(all->at, all->n, sizeof *all->at, by_event);
  for(size_t i = 1; i < all->n; i++) CHECK(of, all->at[i - 1].event < all->at[i].event);
  captured whole = concatenated(of, all);
  CHECK(of, changecap_open(&copy) == CHANGECAP_OK);
  made_tables(of, &copy);
  uint32_t status = changecap_apply(&copy, whole.at, whole.n, CHANGECAP_ABORT, CHANGECAP_ABORT, CHANGECAP_ABORT,
                                    &report, &fault);
  CHECK(of, status == CHANGECAP_OK);
  CHECK(of, same_rows(of, client, &copy, "accounts") == ACCOUNTS);
  CHECK(of, same_rows(of, client, &copy, "notes") > 0);
  CHECK(of, changecap_meet(client, &copy) == CHANGECAP_MISUSE);
  free(whole.at);
  changecap_close(&copy);
}

static void one_history(long calls){
  static worker workers[THREADS + 1];
  tally of = { 0, 0 };
  changecap_client client = CHANGECAP_CLOSED;
  pthread_t threads[THREADS + 1];
  list all = { NULL, 0, 0 };
  uint64_t seen = 0, front = 0;
  worker own = { .number = -1 };
  CHECK(&of, changecap_open(&client) == CHANGECAP_OK);
  uint64_t session = begun(&of, &client);
  for(int i = 0; i <= THREADS; i++){
    workers[i] = (worker){ .number = i, .wanted = calls / THREADS, .session = session,
                           .state = 88172645463325252u + (uint64_t)i };
    CHECK(&of, changecap_join(&workers[i].client, &client) == CHANGECAP_OK);
    CHECK(&of, pthread_create(&threads[i], NULL, i < THREADS ? work : end_early, &workers[i]) == 0);
  }
  for(int i = 0; i <= THREADS; i++) CHECK(&of, pthread_join(threads[i], NULL) == 0);
  long made = 0, commits = 0, again = 0, captures = 0, busy = 0;
  for(int i = 0; i <= THREADS; i++){
    for(size_t at = 0; at < workers[i].captured.n; at++) put(&all, workers[i].captured.at[at]);
    free(workers[i].captured.at);
    made += workers[i].calls, commits += workers[i].commits, again += workers[i].again;
    captures += workers[i].captures, busy += workers[i].busy;
    CHECK(&of, changecap_meet(&client, &workers[i].client) == CHANGECAP_OK);
    CHECK(&of, changecap_seen(&client, &seen) == CHANGECAP_OK);
  }
  CHECK(&of, changecap_front(&client, &front) == CHANGECAP_OK && front == seen);
  own.client = client;
  own.session = session;
  restart(&own);
  put(&all, own.captured.at[0]);
  free(own.captured.at);
  makes_a_copy(&of, &client, &all);
  free(all.at);
  for(int i = 0; i <= THREADS; i++) changecap_close(&workers[i].client);
  changecap_close(&client);
  add_tally(&own.of);
  add_tally(&of);
  printf("%ld calls, %ld commits, %ld transactions begun again, %ld captures, %ld calls that were busy\n", made,
         commits, again, captures, busy);
}

/* Threads that do nothing but commit meet at the state. Each commit is made once, and has a version of its own. */
static void counted_commits(long calls){
  static worker workers[THREADS];
  tally of = { 0, 0 };
  changecap_client client = CHANGECAP_CLOSED;
  changecap_snapshot snapshot = CHANGECAP_CLOSED;
  pthread_t threads[THREADS];
  uint64_t version = 0, events = 0, commits = 0;
  CHECK(&of, changecap_open(&client) == CHANGECAP_OK);
  for(int i = 0; i < THREADS; i++){
    workers[i] = (worker){ .number = i, .wanted = calls / THREADS, .state = 362436069u + (uint64_t)i };
    CHECK(&of, changecap_join(&workers[i].client, &client) == CHANGECAP_OK);
    CHECK(&of, pthread_create(&threads[i], NULL, only_commit, &workers[i]) == 0);
  }
  for(int i = 0; i < THREADS; i++){
    CHECK(&of, pthread_join(threads[i], NULL) == 0);
    commits += (uint64_t)workers[i].commits;
  }
  CHECK(&of, changecap_front(&client, &events) == CHANGECAP_OK && events == commits);
  CHECK(&of, changecap_snapshot_open(&client, &snapshot) == CHANGECAP_OK);
  CHECK(&of, changecap_snapshot_version(&snapshot, &version) == CHANGECAP_OK && version == commits);
  changecap_snapshot_close(&snapshot);
  changecap_close(&client);
  add_tally(&of);
}

/* Threads that commit under one session, each commit with its capture, have each their own changes. */
static void attributed_commits(long calls){
  static worker workers[THREADS];
  tally of = { 0, 0 };
  changecap_client client = CHANGECAP_CLOSED;
  pthread_t threads[THREADS];
  changecap_fault fault;
  uint64_t version, session = 0;
  CHECK(&of, changecap_open(&client) == CHANGECAP_OK);
  made_tables(&of, &client);
  CHECK(&of, changecap_session_new(&client, &session, &fault) == CHANGECAP_OK);
  CHECK(&of, changecap_session_attach_all(&client, session, &fault) == CHANGECAP_OK);
  for(int i = 0; i < THREADS; i++){
    workers[i] = (worker){ .number = i, .wanted = calls / THREADS, .session = session };
    CHECK(&of, changecap_join(&workers[i].client, &client) == CHANGECAP_OK);
    CHECK(&of, pthread_create(&threads[i], NULL, commit_and_capture, &workers[i]) == 0);
  }
  for(int i = 0; i < THREADS; i++) CHECK(&of, pthread_join(threads[i], NULL) == 0);
  changecap_batch batch = CHANGECAP_CLOSED;
  changecap_capture capture = CHANGECAP_CLOSED;
  record twice = of_note(0, 0, "twice"), later = of_note(THREADS, 0, "later");
  CHECK(&of, changecap_batch_open(&batch) == CHANGECAP_OK);
  CHECK(&of, changecap_insert(&batch, "notes", 5, twice.at, twice.n, CHANGECAP_DIRECT, &fault) == CHANGECAP_OK);
  CHECK(&of, changecap_commit_captured(&client, &batch, session, &version, &capture, &fault) == CHANGECAP_REFUSED);
  CHECK(&of, fault.kind == 5 && fault.at == 0 && version == 0 && capture.at == NULL);
  changecap_batch_clear(&batch);
  CHECK(&of, changecap_insert(&batch, "notes", 5, later.at, later.n, CHANGECAP_DIRECT, &fault) == CHANGECAP_OK);
  CHECK(&of, changecap_commit_captured(&client, &batch, session + 1, &version, &capture, &fault)
             == CHANGECAP_REFUSED);
  CHECK(&of, fault.kind == 18 && version == 0 && capture.at == NULL);
  CHECK(&of, changecap_commit_captured(&client, &batch, session, &version, &capture, &fault) == CHANGECAP_OK);
  CHECK(&of, has_only(&capture, &of, &later));
  changecap_batch_close(&batch);
  changecap_close(&client);
  add_tally(&of);
}

/* ---- Clients and handles ---- */

/* A history has 64 clients and no further one, until one is closed. */
static void counted_clients(void){
  tally of = { 0, 0 };
  changecap_client clients[CLIENTS + 1];
  changecap_fault fault;
  uint64_t version;
  memset(clients, 0, sizeof clients);
  CHECK(&of, changecap_open(&clients[0]) == CHANGECAP_OK);
  for(int i = 1; i < CLIENTS; i++) CHECK(&of, changecap_join(&clients[i], &clients[i / 2]) == CHANGECAP_OK);
  CHECK(&of, changecap_join(&clients[CLIENTS], &clients[0]) == CHANGECAP_CLIENTS && clients[CLIENTS].at == NULL);
  CHECK(&of, changecap_create(&clients[CLIENTS - 1], "t", 1, "\1", 1, &version, &fault) == CHANGECAP_OK);
  changecap_close(&clients[0]);
  CHECK(&of, clients[0].at == NULL && changecap_join(&clients[CLIENTS], &clients[1]) == CHANGECAP_OK);
  CHECK(&of, changecap_join(&clients[0], &clients[CLIENTS]) == CHANGECAP_CLIENTS);
  CHECK(&of, changecap_create(&clients[CLIENTS], "t", 1, "\1", 1, &version, &fault) == CHANGECAP_REFUSED);
  CHECK(&of, fault.kind == 9);
  for(int i = 0; i <= CLIENTS; i++) changecap_close(&clients[i]);
  add_tally(&of);
}

/* Handles whose client is closed, and whose history has ended, are as before. */
static void lasting_handles(void){
  tally of = { 0, 0 };
  changecap_client client = CHANGECAP_CLOSED, other = CHANGECAP_CLOSED;
  changecap_batch batch = CHANGECAP_CLOSED, ended = CHANGECAP_CLOSED;
  changecap_snapshot snapshot = CHANGECAP_CLOSED;
  changecap_transaction transaction = CHANGECAP_CLOSED;
  changecap_capture capture = CHANGECAP_CLOSED;
  changecap_rows rows = CHANGECAP_CLOSED, more = CHANGECAP_CLOSED;
  changecap_fault fault = { 0, 0 };
  uint64_t version = 0;
  record key = of_number(ACCOUNTS - 1), row = of_numbers(ACCOUNTS, MONEY), fields = of_balance(7);
  CHECK(&of, changecap_open(&client) == CHANGECAP_OK);
  uint64_t session = begun(&of, &client);
  CHECK(&of, changecap_batch_open(&batch) == CHANGECAP_OK);
  CHECK(&of, changecap_insert(&batch, "accounts", 8, row.at, row.n, CHANGECAP_DIRECT, &fault) == CHANGECAP_OK);
  CHECK(&of, changecap_snapshot_open(&client, &snapshot) == CHANGECAP_OK);
  CHECK(&of, changecap_begin(&snapshot, &transaction) == CHANGECAP_OK);
  CHECK(&of, changecap_scan(&snapshot, "accounts", 8, &rows, &fault) == CHANGECAP_OK);
  CHECK(&of, changecap_session_capture(&client, session, &capture, &fault) == CHANGECAP_OK);
  changecap_close(&client);
  int64_t number = 0;
  while( changecap_step(&rows) == CHANGECAP_ROW ) number++;
  CHECK(&of, number == ACCOUNTS);
  CHECK(&of, changecap_get(&snapshot, "accounts", 8, key.at, key.n, 0, &more, &fault) == CHANGECAP_OK);
  CHECK(&of, changecap_step(&more) == CHANGECAP_ROW && changecap_step(&more) == CHANGECAP_DONE);
  changecap_rows_close(&more);
  CHECK(&of, changecap_transaction_update(&transaction, "accounts", 8, key.at, key.n, 0, fields.at, fields.n,
                                          CHANGECAP_DIRECT, &fault) == CHANGECAP_OK);
  CHECK(&of, changecap_end(&transaction, &ended) == CHANGECAP_OK);
  captured whole = bytes_of(&of, &capture);
  changecap_report report;
  CHECK(&of, changecap_open(&other) == CHANGECAP_OK);
  made_tables(&of, &other);
  CHECK(&of, changecap_apply(&other, whole.at, whole.n, CHANGECAP_ABORT, CHANGECAP_ABORT, CHANGECAP_ABORT, &report,
                             &fault) == CHANGECAP_OK && report.applied == ACCOUNTS);
  CHECK(&of, changecap_commit(&other, &batch, &version, &fault) == CHANGECAP_OK);
  changecap_rows left = all_rows(&of, &other, "accounts");
  for(number = 0; changecap_step(&left) == CHANGECAP_ROW; ) number++;
  CHECK(&of, number == ACCOUNTS + 1);
  free(whole.at);
  changecap_rows_close(&left);
  changecap_rows_close(&rows);
  changecap_snapshot_close(&snapshot);
  changecap_batch_close(&batch);
  changecap_batch_close(&ended);
  changecap_close(&other);
  add_tally(&of);
}

int main(int words, char **word){
  if( words != 2 ){
    fputs("test_threads CALLS\n", stderr);
    return 2;
  }
  counted_clients();
  lasting_handles();
  counted_commits(atol(word[1]) / 10);
  attributed_commits(atol(word[1]) / 10);
  one_history(atol(word[1]));
  printf("%ld passed, %ld failed\n", passed, failed);
  return failed != 0;
}
