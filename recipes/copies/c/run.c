/* Two copies of a table that change the same rows get in step. ../README.md says how. */
#include <changecap.h>

#include <stdio.h>
#include <stdlib.h>

/* Ends the program unless a call does what it says. */
#define RIGHT(call) do{ if( (call) != CHANGECAP_OK ){ fprintf(stderr, "%s\n", #call); exit(1); } }while( 0 )

/* A client of a history of its own, and a session that has what was changed here since the copies were in step. */
typedef struct copy {
  changecap_client client;
  uint64_t session;
} copy;

/* Bytes that the one who has them frees. */
typedef struct blob {
  uint8_t *at;
  size_t n;
} blob;

static blob room_for(size_t n){
  blob made = { malloc(n + 1), n };
  RIGHT(made.at == NULL);
  return made;
}

/* What was changed here since the last time. */
static blob changed(copy *of){
  changecap_capture capture = CHANGECAP_CLOSED;
  changecap_fault fault;
  size_t n = 0;
  RIGHT(changecap_session_restart(&of->client, of->session, &capture, &fault));
  changecap_capture_changeset(&capture, CHANGECAP_KEYS_PLACES, NULL, 0, &n);
  blob made = room_for(n);
  RIGHT(changecap_capture_changeset(&capture, CHANGECAP_KEYS_PLACES, made.at, n, &n));
  changecap_capture_close(&capture);
  return made;
}

/* Applies what the other one has changed, and answers what met a conflict. Nobody changes something here meanwhile. */
static blob apply(copy *to, blob changeset, uint32_t answer){
  changecap_iter it = CHANGECAP_CLOSED;
  changecap_report report;
  changecap_fault fault;
  uint32_t flag;
  blob buffer = room_for(changeset.n);
  RIGHT(changecap_iter_open(changeset.at, changeset.n, &it, &fault));
  RIGHT(changecap_session_enable(&to->client, to->session, CHANGECAP_OFF, &flag, &fault));
  RIGHT(changecap_apply_iter(&to->client, &it, answer, answer, answer, &report, &fault));
  RIGHT(changecap_session_enable(&to->client, to->session, CHANGECAP_ON, &flag, &fault));
  RIGHT(changecap_iter_buffer(&it, CHANGECAP_KEYS_PLACES, buffer.at, buffer.n, &buffer.n));
  changecap_iter_close(&it);
  return buffer;
}

/* Brings them in step. Where both have changed a row, that of the client stays. */
static void synchronise(copy *hub, copy *client){
  changecap_fault fault;
  size_t refused, n = 0;
  blob theirs = changed(hub), own = changed(client), buffer = apply(client, theirs, CHANGECAP_OMIT);
  changecap_rebase(own.at, own.n, buffer.at, buffer.n, CHANGECAP_KEYS_PLACES, NULL, 0, &n, &fault, &refused);
  blob rebased = room_for(n);
  RIGHT(changecap_rebase(own.at, own.n, buffer.at, buffer.n, CHANGECAP_KEYS_PLACES, rebased.at, n, &n, &fault,
                         &refused));
  free(apply(hub, rebased, CHANGECAP_ABORT).at); /* it leads from the rows of the hub: there is no conflict */
  free(theirs.at);
  free(own.at);
  free(buffer.at);
  free(rebased.at);
}

/* ---- A run ---- */

static void command(copy *of, const char *text){
  changecap_fault fault;
  RIGHT(changecap_call(&of->client, text, strlen(text), &fault));
}

static void open_copy(copy *of){
  changecap_fault fault;
  *of = (copy){ CHANGECAP_CLOSED, 0 };
  RIGHT(changecap_open(&of->client));
  command(of, "create t kv");
  command(of, "commit insert t (1,'a') ; insert t (2,'b') ; insert t (3,'c')");
  RIGHT(changecap_session_new(&of->client, &of->session, &fault));
  RIGHT(changecap_session_attach_all(&of->client, of->session, &fault));
}

static void show(copy *of, const char *name){
  changecap_snapshot snapshot = CHANGECAP_CLOSED;
  changecap_rows rows = CHANGECAP_CLOSED;
  changecap_fault fault;
  changecap_value id;
  char text[16];
  size_t n;
  RIGHT(changecap_snapshot_open(&of->client, &snapshot));
  RIGHT(changecap_scan(&snapshot, "t", 1, &rows, &fault));
  printf("%s:", name);
  for(const char *between = ""; changecap_step(&rows) == CHANGECAP_ROW; between = ","){
    RIGHT(changecap_column(&rows, 0, &id));
    RIGHT(changecap_column_bytes(&rows, 1, text, sizeof text, &n));
    printf("%s %lld %.*s", between, (long long)id.number, (int)n, text);
  }
  putchar('\n');
  changecap_rows_close(&rows);
  changecap_snapshot_close(&snapshot);
}

int main(void){
  copy hub, client;
  open_copy(&hub);
  open_copy(&client);
  command(&hub, "commit update t key(1) set 1 = 'of the hub' ; delete t key(2) ; insert t (4,'of the hub')");
  command(&client, "commit update t key(1) set 1 = 'of the client' ; update t key(2) set 1 = 'of the client'");
  command(&client, "commit insert t (4,'of the client') ; insert t (5,'of the client')");
  for(int i = 0; i < 2; i++){
    show(&hub, "hub");
    show(&client, "client");
    if( i == 0 ) synchronise(&hub, &client);
  }
  changecap_close(&hub.client);
  changecap_close(&client.client);
}
