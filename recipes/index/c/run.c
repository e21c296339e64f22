/* A search index that follows a table by captures, while threads write. ../README.md says how. */
#include <changecap.h>

#include <pthread.h>
#include <stdio.h>
#include <stdlib.h>

/* Ends the program unless a call does what it says. */
#define RIGHT(call) do{ if( (call) != CHANGECAP_OK ){ fprintf(stderr, "%s\n", #call); exit(1); } }while( 0 )

enum { BUCKETS = 1024 };

/* The rows, each a bit by its id below 64, by the hash of the words in their column 1. */
typedef struct word_index {
  uint64_t rows[BUCKETS], version;
} word_index;

static size_t bucket_of(const char *word, size_t n){
  size_t hash = 5381;
  while( n-- > 0 ) hash = hash * 33 + (uint8_t)*word++;
  return hash % BUCKETS;
}

/* Puts a row under the words of a text, or takes it away from them. */
static void note(word_index *of, int64_t row, const char *text, size_t n, int is_there){
  uint64_t bit = (uint64_t)1 << row;
  for(size_t i = 0, end; i < n; i = end + 1){
    for(end = i; end < n && text[end] != ' '; end++);
    uint64_t *rows = &of->rows[bucket_of(text + i, end - i)];
    *rows = is_there ? *rows | bit : *rows & ~bit;
  }
}

/* Takes what was committed since the last time. The index is then that of the tables at its version. */
static void catch_up(word_index *of, changecap_client *client, uint64_t session){
  changecap_capture capture = CHANGECAP_CLOSED;
  changecap_iter it = CHANGECAP_CLOSED;
  changecap_change change;
  changecap_fault fault;
  changecap_value row;
  size_t n = 0;
  char text[64];
  RIGHT(changecap_session_restart(client, session, &capture, &fault));
  changecap_capture_version(&capture, &of->version);
  changecap_capture_changeset(&capture, CHANGECAP_KEYS_PLACES, NULL, 0, &n);
  void *changeset = malloc(n + 1);
  RIGHT(changeset == NULL);
  RIGHT(changecap_capture_changeset(&capture, CHANGECAP_KEYS_PLACES, changeset, n, &n));
  changecap_capture_close(&capture);
  RIGHT(changecap_iter_open(changeset, n, &it, &fault));
  free(changeset);
  while( changecap_iter_next(&it) == CHANGECAP_ROW ){
    changecap_iter_op(&it, &change);
    (change.op == CHANGECAP_INSERT ? changecap_iter_new : changecap_iter_old)(&it, 0, &row);
    /* Of an update that leaves the text as it is, neither side has it: it has no bytes then. */
    RIGHT(changecap_iter_old_bytes(&it, 1, text, sizeof text, &n));
    note(of, row.number, text, n, 0);
    RIGHT(changecap_iter_new_bytes(&it, 1, text, sizeof text, &n));
    note(of, row.number, text, n, 1);
  }
  changecap_iter_close(&it);
}

/* ---- A run ---- */

enum { THREADS = 4 };

static const char *const words[] = { "red", "green", "blue", "round", "square", "yellow" };

typedef struct worker {
  changecap_client client;
  int number;
} worker;

static void command(changecap_client *client, const char *text){
  changecap_fault fault;
  RIGHT(changecap_call(client, text, strlen(text), &fault));
}

/* Inserts ten rows, changes the text of each, and another column, and deletes one. */
static void *write_rows(void *given){
  worker *own = given;
  char text[128];
  for(int i = 0; i < 10; i++){
    int row = 10 * own->number + i;
    const char *first = words[(own->number + i) % 5], *second = words[(2 * own->number + i * 2) % 5];
    snprintf(text, sizeof text, "commit insert things (%d,'%s',0)", row, first);
    command(&own->client, text);
    snprintf(text, sizeof text, "commit update things key(%d) set 1 = '%s %s'", row, first, second);
    command(&own->client, text);
    snprintf(text, sizeof text, "commit update things key(%d) set 2 = %d", row, i);
    command(&own->client, text);
  }
  snprintf(text, sizeof text, "commit delete things key(%d)", 10 * own->number);
  command(&own->client, text);
  changecap_close(&own->client);
  return NULL;
}

/* An index that is made of the rows. Answers how many there are. */
static int read_rows(changecap_client *client, word_index *made){
  changecap_snapshot snapshot = CHANGECAP_CLOSED;
  changecap_rows rows = CHANGECAP_CLOSED;
  changecap_fault fault;
  changecap_value row;
  char text[64];
  size_t n;
  int found = 0;
  RIGHT(changecap_snapshot_open(client, &snapshot));
  RIGHT(changecap_scan(&snapshot, "things", 6, &rows, &fault));
  for(; changecap_step(&rows) == CHANGECAP_ROW; found++){
    RIGHT(changecap_column(&rows, 0, &row));
    RIGHT(changecap_column_bytes(&rows, 1, text, sizeof text, &n));
    note(made, row.number, text, n, 1);
  }
  changecap_rows_close(&rows);
  changecap_snapshot_close(&snapshot);
  return found;
}

int main(void){
  static word_index followed, made;
  changecap_client client = CHANGECAP_CLOSED;
  changecap_fault fault;
  worker workers[THREADS];
  pthread_t threads[THREADS];
  uint64_t session;
  RIGHT(changecap_open(&client));
  command(&client, "create things kvv");
  RIGHT(changecap_session_new(&client, &session, &fault));
  RIGHT(changecap_session_attach(&client, session, "things", 6, &fault));
  for(int i = 0; i < THREADS; i++){
    workers[i] = (worker){ CHANGECAP_CLOSED, i };
    RIGHT(changecap_join(&workers[i].client, &client));
    if( pthread_create(&threads[i], NULL, write_rows, &workers[i]) != 0 ) return 1;
  }
  for(int i = 0; i < 1000; i++) catch_up(&followed, &client, session);
  for(int i = 0; i < THREADS; i++) pthread_join(threads[i], NULL);
  catch_up(&followed, &client, session);
  printf("%d rows\n", read_rows(&client, &made));
  for(size_t word = 2; word < 6; word += 3){
    printf("%s:", words[word]);
    for(int row = 0; row < 64; row++)
      if( followed.rows[bucket_of(words[word], strlen(words[word]))] >> row & 1 ) printf(" %d", row);
    putchar('\n');
  }
  if( memcmp(followed.rows, made.rows, sizeof made.rows) != 0 ) puts("words are found in other rows");
  changecap_close(&client);
}
