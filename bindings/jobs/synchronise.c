/* Two copies that changed the same rows and different ones get in step: the client pulls what the hub has changed,
 * rebases what it has changed itself, and pushes that. */
#include <changecap.h>
#include <stdio.h>
#include <stdlib.h>

struct blob { uint8_t *at; size_t n, room; };
struct copy { const char *name; changecap_client client; uint64_t session; };

static changecap_fault fault;

static void check(uint32_t status, int line){
  if( status == CHANGECAP_OK ) return;
  fprintf(stderr, "line %d: %s (%u at %zu)\n", line, changecap_errstr(status), (unsigned)fault.kind, fault.at);
  exit(1);
}
#define OK(call) check(call, __LINE__)

/* Whether the call is to be made again, since the blob has the room now that it takes. */
static int again(uint32_t status, struct blob *blob, int line){
  if( status != CHANGECAP_ROOM ){
    check(status, line);
    return 0;
  }
  free(blob->at);
  if( (blob->at = malloc(blob->n)) == NULL ) exit(1);
  blob->room = blob->n;
  return 1;
}
#define FILL(blob, call) while( again(call, blob, __LINE__) )

static void command(struct copy *copy, const char *text){
  OK(changecap_call(&copy->client, text, strlen(text), &fault));
}

static void begin(struct copy *copy){
  OK(changecap_open(&copy->client));
  command(copy, "create t kvv");
  command(copy, "commit insert t (1,'a',1) ; insert t (2,'b',2) ; insert t (3,'c',3) ; insert t (4,'d',4) ; "
                "insert t (5,'e',5) ; insert t (6,'f',6)");
  OK(changecap_session_new(&copy->client, &copy->session, &fault));
  OK(changecap_session_attach(&copy->client, copy->session, "t", 1, &fault));
}

static void print_rows(struct copy *copy){
  struct blob reply = { NULL, 0, 0 };
  command(copy, "scan t");
  FILL(&reply, changecap_reply(&copy->client, reply.at, reply.room, &reply.n));
  printf("%s: %.*s\n", copy->name, (int)reply.n, (const char *)reply.at);
  free(reply.at);
}

/* What the copy has changed since it was captured last. */
static struct blob restart(struct copy *copy){
  changecap_capture capture = CHANGECAP_CLOSED;
  struct blob blob = { NULL, 0, 0 };
  OK(changecap_session_restart(&copy->client, copy->session, &capture, &fault));
  FILL(&blob, changecap_capture_changeset(&capture, CHANGECAP_KEYS_PLACES, blob.at, blob.room, &blob.n));
  changecap_capture_close(&capture);
  return blob;
}

static void enable(struct copy *copy, uint32_t set){
  uint32_t flag;
  OK(changecap_session_enable(&copy->client, copy->session, set, &flag, &fault));
}

static void print_report(const char *what, const changecap_report *report){
  printf("%s: applied %llu, conflicts %llu, omitted %llu\n", what, (unsigned long long)report->applied,
         (unsigned long long)report->conflicts, (unsigned long long)report->omitted);
}

static void synchronise(struct copy *hub, struct copy *client){
  struct blob of_hub = restart(hub), own = restart(client);
  struct blob buffer = { NULL, 0, 0 }, rebased = { NULL, 0, 0 }, json = { NULL, 0, 0 };
  changecap_iter it = CHANGECAP_CLOSED;
  changecap_report report;
  size_t refused;

  enable(client, CHANGECAP_OFF); /* the hub's changes are not the client's own */
  OK(changecap_iter_open(of_hub.at, of_hub.n, &it, &fault));
  OK(changecap_apply_iter(&client->client, &it, CHANGECAP_OMIT, CHANGECAP_OMIT, CHANGECAP_REPLACE, &report, &fault));
  enable(client, CHANGECAP_ON);
  print_report("pull", &report);
  FILL(&buffer, changecap_iter_buffer(&it, CHANGECAP_KEYS_PLACES, buffer.at, buffer.room, &buffer.n));
  changecap_iter_close(&it);

  FILL(&rebased, changecap_rebase(own.at, own.n, buffer.at, buffer.n, CHANGECAP_KEYS_PLACES, rebased.at, rebased.room,
                                  &rebased.n, &fault, &refused));
  FILL(&json, changecap_json(rebased.at, rebased.n, json.at, json.room, &json.n, &fault));
  printf("%.*s", (int)json.n, (const char *)json.at);

  enable(hub, CHANGECAP_OFF); /* the client does not get its own changes back */
  OK(changecap_apply(&hub->client, rebased.at, rebased.n, CHANGECAP_ABORT, CHANGECAP_ABORT, CHANGECAP_ABORT, &report,
                     &fault));
  enable(hub, CHANGECAP_ON);
  print_report("push", &report);
  print_rows(hub);
  print_rows(client);
  free(of_hub.at);
  free(own.at);
  free(buffer.at);
  free(rebased.at);
  free(json.at);
}

int main(void){
  struct copy hub = { "hub", CHANGECAP_CLOSED, 0 }, client = { "client", CHANGECAP_CLOSED, 0 };
  begin(&hub);
  begin(&client);
  command(&hub, "commit update t key(1) set 2 = 10 ; update t key(2) set 1 = 'hub' ; delete t key(3) ; "
                "update t key(4) set 1 = 'hub' ; update t key(6) set 2 = 60 ; insert t (7,'hub',7)");
  command(&client, "commit update t key(1) set 2 = 11 ; "   /* the same column: DATA, omitted */
                   "update t key(2) set 2 = 22 ; "          /* another column: no conflict */
                   "update t key(3) set 1 = 'client' ; "    /* the hub has deleted it: DATA, omitted */
                   "delete t key(4) ; "                     /* the hub has changed it: NOTFOUND, omitted */
                   "update t key(5) set 1 = 'client' ; "    /* the client alone */
                   "insert t (7,'client',70) ; "            /* another row: CONFLICT, replaced */
                   "insert t (8,'new',8)");
  synchronise(&hub, &client);
  command(&hub, "commit update t key(1) set 1 = 'both' ; update t key(8) set 2 = 88");
  command(&client, "commit update t key(1) set 2 = 12");
  synchronise(&hub, &client);
  OK(changecap_session_drop(&hub.client, hub.session, &fault));
  OK(changecap_session_drop(&client.client, client.session, &fault));
  changecap_close(&hub.client);
  changecap_close(&client.client);
  return 0;
}
