/* Captures what is changed in a table, and applies it to a copy. ../README.md has the steps. */
#include <changecap.h>

#include <stdio.h>
#include <stdlib.h>

/* Ends the program unless a call does what it says. */
#define RIGHT(call) do{ if( (call) != CHANGECAP_OK ){ fprintf(stderr, "%s\n", #call); exit(1); } }while( 0 )

/* Carries out a line of the workload language. */
static void command(changecap_client *client, const char *text){
  changecap_fault fault;
  RIGHT(changecap_call(client, text, strlen(text), &fault));
}

static void print_rows(changecap_client *client){
  changecap_snapshot snapshot = CHANGECAP_CLOSED;
  changecap_rows rows = CHANGECAP_CLOSED;
  changecap_fault fault;
  changecap_value id;
  char name[16];
  size_t n;
  RIGHT(changecap_snapshot_open(client, &snapshot));
  RIGHT(changecap_scan(&snapshot, "fruit", 5, &rows, &fault));
  printf("copy:");
  for(const char *between = ""; changecap_step(&rows) == CHANGECAP_ROW; between = ","){
    RIGHT(changecap_column(&rows, 0, &id));
    RIGHT(changecap_column_bytes(&rows, 1, name, sizeof name, &n));
    printf("%s %lld %.*s", between, (long long)id.number, (int)n, name);
  }
  putchar('\n');
  changecap_rows_close(&rows);
  changecap_snapshot_close(&snapshot);
}

static void print_changes(const void *changeset, size_t n){
  changecap_iter it = CHANGECAP_CLOSED;
  changecap_change change;
  changecap_fault fault;
  changecap_value id;
  RIGHT(changecap_iter_open(changeset, n, &it, &fault));
  printf("changes:");
  for(const char *between = ""; changecap_iter_next(&it) == CHANGECAP_ROW; between = ","){
    RIGHT(changecap_iter_op(&it, &change));
    RIGHT((change.op == CHANGECAP_INSERT ? changecap_iter_new : changecap_iter_old)(&it, 0, &id));
    const char *word = change.op == CHANGECAP_INSERT ? "insert" : change.op == CHANGECAP_UPDATE ? "update" : "delete";
    printf("%s %s %lld", between, word, (long long)id.number);
  }
  putchar('\n');
  changecap_iter_close(&it);
}

/* What the session has captured since the last time, in bytes at out. */
static size_t captured(changecap_client *client, uint64_t session, uint8_t *out, size_t room){
  changecap_capture capture = CHANGECAP_CLOSED;
  changecap_fault fault;
  size_t n;
  RIGHT(changecap_session_restart(client, session, &capture, &fault));
  RIGHT(changecap_capture_changeset(&capture, CHANGECAP_KEYS_PLACES, out, room, &n));
  changecap_capture_close(&capture);
  return n;
}

/* ---- A run ---- */

int main(void){
  changecap_client both[2] = { CHANGECAP_CLOSED, CHANGECAP_CLOSED }, *server = &both[0], *copy = &both[1];
  changecap_report report;
  changecap_fault fault;
  uint64_t session;
  uint8_t changeset[256];
  for(int i = 0; i < 2; i++){
    RIGHT(changecap_open(&both[i]));
    command(&both[i], "create fruit kv");
    command(&both[i], "commit insert fruit (1,'apple') ; insert fruit (2,'pear')");
  }
  RIGHT(changecap_session_new(server, &session, &fault));
  RIGHT(changecap_session_attach(server, session, "fruit", 5, &fault));

  command(server, "commit update fruit key(1) set 1 = 'quince' ; insert fruit (3,'plum')");
  command(server, "commit delete fruit key(2)");
  size_t n = captured(server, session, changeset, sizeof changeset);
  print_changes(changeset, n);
  RIGHT(changecap_apply(copy, changeset, n, CHANGECAP_ABORT, CHANGECAP_ABORT, CHANGECAP_ABORT, &report, &fault));
  print_rows(copy);

  command(copy, "commit delete fruit key(3)");
  command(server, "commit update fruit key(3) set 1 = 'sloe' ; insert fruit (4,'fig')");
  n = captured(server, session, changeset, sizeof changeset);
  if( changecap_apply(copy, changeset, n, CHANGECAP_ABORT, CHANGECAP_ABORT, CHANGECAP_ABORT, &report, &fault)
      == CHANGECAP_REFUSED ) printf("refused at change %zu\n", fault.at); /* nothing was changed */
  RIGHT(changecap_apply(copy, changeset, n, CHANGECAP_REPLACE, CHANGECAP_OMIT, CHANGECAP_REPLACE, &report, &fault));
  printf("applied %llu, omitted %llu\n", (unsigned long long)report.applied, (unsigned long long)report.omitted);
  print_rows(copy);
  for(int i = 0; i < 2; i++) changecap_close(&both[i]);
}
