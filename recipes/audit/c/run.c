/* A service with threads that writes an audit trail of JSON lines. ../README.md says what is in a line. */
#define _POSIX_C_SOURCE 200809L
#include <changecap.h>

#include <pthread.h>
#include <stdio.h>
#include <stdlib.h>

/* Ends the program unless a call does what it says. */
#define RIGHT(call) do{ if( (call) != CHANGECAP_OK ){ fprintf(stderr, "%s\n", #call); exit(1); } }while( 0 )

/* A blob of a line, and the version that its commit made. */
typedef struct line {
  unsigned long long version;
  size_t n;
  uint8_t changeset[256];
} line;

/* Commits, and writes the line of this commit, whatever other threads commit meanwhile. */
static void commit(changecap_client *client, changecap_batch *batch, uint64_t session, const char *thread, FILE *trail){
  changecap_capture capture = CHANGECAP_CLOSED;
  changecap_fault fault;
  uint8_t changeset[256], json[512];
  size_t n, len;
  uint64_t version;
  RIGHT(changecap_commit_captured(client, batch, session, &version, &capture, &fault));
  RIGHT(changecap_capture_changeset(&capture, CHANGECAP_KEYS_PLACES, changeset, sizeof changeset, &n));
  RIGHT(changecap_json(changeset, n, json, sizeof json, &len, &fault));
  changecap_capture_close(&capture);
  flockfile(trail);
  fprintf(trail, "{\"version\":%llu,\"thread\":\"%s\",\"changeset\":\"", (unsigned long long)version, thread);
  for(size_t i = 0; i < n; i++) fprintf(trail, "%02x", changeset[i]);
  fprintf(trail, "\",\"changes\":%.*s}\n", (int)len - 1, (char *)json); /* without its line feed */
  funlockfile(trail);
}

static int by_version(const void *a, const void *b){
  const line *one = a, *other = b;
  return (one->version > other->version) - (one->version < other->version);
}

/* The lines of a trail in the order of their versions, at most so many. */
static size_t read_trail(FILE *trail, line *lines, size_t most){
  size_t found = 0;
  char hex[512];
  for(; found < most && fscanf(trail, "{\"version\":%llu,\"thread\":\"%*[^\"]\",\"changeset\":\"%511[0-9a-f]%*[^\n] ",
                               &lines[found].version, hex) == 2; found++)
    for(size_t i = lines[found].n = 0; hex[i]; i += 2)
      sscanf(hex + i, "%2hhx", &lines[found].changeset[lines[found].n++]);
  qsort(lines, found, sizeof *lines, by_version);
  return found;
}

/* Applies a line to a copy, or undoes it. Where the rows are not as they were then, it is refused. */
static void apply(changecap_client *copy, const line *of, int is_back){
  changecap_report report;
  changecap_fault fault;
  uint8_t inverse[256];
  size_t n = of->n;
  if( is_back ) RIGHT(changecap_invert(of->changeset, n, CHANGECAP_KEYS_PLACES, inverse, sizeof inverse, &n, &fault));
  RIGHT(changecap_apply(copy, is_back ? inverse : of->changeset, n, CHANGECAP_ABORT, CHANGECAP_ABORT, CHANGECAP_ABORT,
                        &report, &fault));
}

/* ---- A run ---- */

enum { THREADS = 4, PRICES = 25, LINES = 1 + 2 * THREADS * PRICES };

typedef struct worker {
  changecap_client client;
  uint64_t session;
  int first;
  char name[32];
  FILE *trail;
} worker;

static void command(changecap_client *client, const char *text){
  changecap_fault fault;
  RIGHT(changecap_call(client, text, strlen(text), &fault));
}

static void *work(void *given){
  worker *own = given;
  changecap_batch batch = CHANGECAP_CLOSED;
  changecap_fault fault;
  uint8_t key[CHANGECAP_FIELD_MAX(0)], price[2 * CHANGECAP_FIELD_MAX(0)];
  RIGHT(changecap_batch_open(&batch));
  for(int i = 0; i < PRICES; i++){
    size_t m = changecap_put_int(key, i % 3), n = changecap_put_undefined(price);
    n += changecap_put_int(price + n, own->first + i);
    RIGHT(changecap_update(&batch, "prices", 6, key, m, 0, price, n, CHANGECAP_DIRECT, &fault));
    commit(&own->client, &batch, own->session, own->name, own->trail);
  }
  changecap_batch_close(&batch);
  changecap_close(&own->client);
  return NULL;
}

static void run_threads(changecap_client *client, uint64_t session, int first, FILE *trail){
  worker workers[THREADS];
  pthread_t threads[THREADS];
  for(int i = 0; i < THREADS; i++){
    workers[i] = (worker){ CHANGECAP_CLOSED, session, first + PRICES * i, "", trail };
    snprintf(workers[i].name, sizeof workers[i].name, "worker %d", i);
    RIGHT(changecap_join(&workers[i].client, client));
    if( pthread_create(&threads[i], NULL, work, &workers[i]) != 0 ) exit(1);
  }
  for(int i = 0; i < THREADS; i++) pthread_join(threads[i], NULL);
}

/* The rows, as text. */
static void rows_of(changecap_client *client, char text[128]){
  size_t n;
  command(client, "scan prices");
  RIGHT(changecap_reply(client, text, 127, &n));
  text[n] = 0;
}

int main(void){
  changecap_client client = CHANGECAP_CLOSED, copy = CHANGECAP_CLOSED;
  changecap_batch batch = CHANGECAP_CLOSED;
  changecap_fault fault;
  uint64_t session;
  uint8_t row[2 * CHANGECAP_FIELD_MAX(0)];
  char then[128], now[128], found[128];
  FILE *trail = tmpfile();
  static line lines[LINES + 1];
  RIGHT(changecap_open(&client));
  RIGHT(changecap_open(&copy));
  command(&client, "create prices kv");
  command(&copy, "create prices kv");
  RIGHT(changecap_session_new(&client, &session, &fault));
  RIGHT(changecap_session_attach(&client, session, "prices", 6, &fault));
  RIGHT(changecap_batch_open(&batch));
  for(int i = 0; i < 3; i++){
    size_t n = changecap_put_int(row, i);
    n += changecap_put_int(row + n, 0);
    RIGHT(changecap_insert(&batch, "prices", 6, row, n, CHANGECAP_DIRECT, &fault));
  }
  commit(&client, &batch, session, "main", trail);
  run_threads(&client, session, 1, trail);
  rows_of(&client, then);
  run_threads(&client, session, 101, trail);
  rows_of(&client, now);
  rewind(trail);
  size_t n = read_trail(trail, lines, LINES + 1);
  printf("%zu lines\n", n);
  for(size_t i = 0; i < n; i++) apply(&copy, &lines[i], 0);
  rows_of(&copy, found);
  if( strcmp(found, now) == 0 ) puts("forwards: the prices of the service");
  while( n > 101 ) apply(&copy, &lines[--n], 1);
  rows_of(&copy, found);
  if( strcmp(found, then) == 0 ) puts("back to version 102: the prices of then");
  while( n > 0 ) apply(&copy, &lines[--n], 1);
  rows_of(&copy, found);
  if( strcmp(found, "rows 0") == 0 ) puts("back to version 1: no prices");
  changecap_batch_close(&batch);
  changecap_close(&client);
  changecap_close(&copy);
  fclose(trail);
}
