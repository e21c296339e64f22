/*
 * The calls of changecap.h that wait for the state of a history.
 *
 * The clients of a history share a mutex. Each call here is the proved changecap_try_X under it, made again while a
 * call that does not wait has the state. Nothing of the state is read or written here.
 *
 * With CHANGECAP_COMBINE a commit is posted, and who has the mutex makes the commits that are posted before it lets go.
 */
#define _POSIX_C_SOURCE 200809L
#include "changecap.h"

#include <pthread.h>
#include <sched.h>
#include <stdatomic.h>
#include <stdlib.h>

#ifndef CHANGECAP_COMBINE
#define CHANGECAP_COMBINE 0
#endif

/* ---- The proved calls below those of the header ---- */

/* Opens a closed client of an empty history: OK, NOMEM. */
uint32_t changecap_client_open(changecap_client *client);

/* Opens a closed client of the history of another: OK, CLIENTS, NOMEM, BUSY. */
uint32_t changecap_try_join(changecap_client *client, changecap_client *of);

/* Closes an open client: OK, BUSY. */
uint32_t changecap_try_close(changecap_client *client);

/* Sees what another client of the same history has seen: OK. */
uint32_t changecap_client_meet(changecap_client *client, changecap_client *other);

/* ---- What the clients of a history share ---- */

/* A commit that waits to be made, where its caller waits. Who makes it writes the status, and then that it is made. */
typedef struct post {
  struct post *next;
  changecap_client *client;
  changecap_batch *batch;
  uint64_t *version;
  changecap_fault *fault;
  uint32_t status;
  atomic_bool is_made;
} post;

typedef struct history {
  pthread_mutex_t mutex;
  size_t clients;         /* under the mutex */
  _Atomic(post *) posted; /* the last one posted first */
} history;

/* The status of a call that does not wait, once the state was free. */
#define WHEN_FREE(status, call) \
  do{ \
    while( ((status) = (call)) == CHANGECAP_BUSY ) sched_yield(); \
  }while( 0 )

#if CHANGECAP_COMBINE

/* Makes the commits that are posted, in the order in which they were. It is called under the mutex. A post is gone as
 * soon as it is said to be made. */
static void make_posted(history *of){
  post *at = atomic_exchange_explicit(&of->posted, NULL, memory_order_acquire), *first = NULL;
  while( at ){
    post *next = at->next;
    at->next = first;
    first = at;
    at = next;
  }
  while( first ){
    post *next = first->next;
    WHEN_FREE(first->status, changecap_try_commit(first->client, first->batch, first->version, first->fault));
    atomic_store_explicit(&first->is_made, 1, memory_order_release);
    first = next;
  }
}

#endif

static void enter(history *of){
  pthread_mutex_lock(&of->mutex);
}

static void leave(history *of){
#if CHANGECAP_COMBINE
  enum { TIMES = 8 };
  for(int times = 0; times < TIMES && atomic_load_explicit(&of->posted, memory_order_relaxed); times++) make_posted(of);
#endif
  pthread_mutex_unlock(&of->mutex);
}

#if CHANGECAP_COMBINE

/* Lets the processor know that a thread looks at the same place again and again. */
static void pause_here(void){
#ifdef __x86_64__
  __builtin_ia32_pause();
#endif
}

/* Posts a commit, and waits until it is made: by who has the mutex, or here. Who gets the mutex after it was posted
 * finds it posted, or made. The looks last for some commits; who has looked in vain sleeps until the mutex is free. */
static uint32_t posted_commit(history *of, changecap_client *client, changecap_batch *batch, uint64_t *version,
                              changecap_fault *fault){
  enum { LOOKS = 2000, LOOKS_A_TRY = 100 };
  post own = { NULL, client, batch, version, fault, CHANGECAP_BUSY, 0 };
  own.next = atomic_load_explicit(&of->posted, memory_order_relaxed);
  while( !atomic_compare_exchange_weak_explicit(&of->posted, &own.next, &own, memory_order_release,
                                                memory_order_relaxed) ){}
  for(int looks = 0; looks < LOOKS; looks++){
    if( looks % LOOKS_A_TRY == 0 && pthread_mutex_trylock(&of->mutex) == 0 ){
      leave(of);
      return own.status;
    }
    if( atomic_load_explicit(&own.is_made, memory_order_acquire) ) return own.status;
    pause_here();
  }
  enter(of);
  leave(of);
  return own.status;
}

#endif

/* Ends a call by the status of one that does not wait, made under the mutex of the client's history. */
#define RETURN_LOCKED(client, call) \
  do{ \
    history *of_client = (client)->shared; \
    uint32_t status; \
    enter(of_client); \
    WHEN_FREE(status, call); \
    leave(of_client); \
    return status; \
  }while( 0 )

/* ---- Clients ---- */

/* A history without clients, or NULL. */
static history *new_history(void){
  history *made = malloc(sizeof *made);
  if( made == NULL ) return NULL;
  if( pthread_mutex_init(&made->mutex, NULL) != 0 ){
    free(made);
    return NULL;
  }
  made->clients = 0;
  atomic_init(&made->posted, NULL);
  return made;
}

static void end_history(history *of){
  pthread_mutex_destroy(&of->mutex);
  free(of);
}

uint32_t changecap_open(changecap_client *client){
  history *made = new_history();
  if( made == NULL ) return CHANGECAP_NOMEM;
  uint32_t status = changecap_client_open(client);
  if( status == CHANGECAP_OK ){
    made->clients = 1;
    client->shared = made;
  }else{
    end_history(made);
  }
  return status;
}

uint32_t changecap_join(changecap_client *client, changecap_client *of){
  history *joined = of->shared;
  uint32_t status;
  enter(joined);
  WHEN_FREE(status, changecap_try_join(client, of));
  if( status == CHANGECAP_OK ){
    joined->clients++;
    client->shared = joined;
  }
  leave(joined);
  return status;
}

void changecap_close(changecap_client *client){
  if( client->at == NULL ) return;
  history *left = client->shared;
  uint32_t status;
  enter(left);
  WHEN_FREE(status, changecap_try_close(client));
  int is_last = --left->clients == 0;
  leave(left);
  client->shared = NULL;
  if( is_last ) end_history(left);
}

uint32_t changecap_meet(changecap_client *client, changecap_client *other){
  if( client->shared != other->shared ) return CHANGECAP_MISUSE;
  return client == other ? CHANGECAP_OK : changecap_client_meet(client, other);
}

/* ---- Commands ---- */

uint32_t changecap_call(changecap_client *client, const void *text, size_t n, changecap_fault *fault){
  RETURN_LOCKED(client, changecap_try_call(client, changecap_bytes(text), n, fault));
}

uint32_t changecap_create(changecap_client *client, const void *table, size_t n, const void *key, size_t columns,
                          uint64_t *version, changecap_fault *fault){
  RETURN_LOCKED(client, changecap_try_create(client, changecap_bytes(table), n, changecap_bytes(key), columns,
                                             version, fault));
}

uint32_t changecap_save(changecap_client *client, const void *database, size_t n, changecap_fault *fault){
  RETURN_LOCKED(client, changecap_try_save(client, changecap_bytes(database), n, fault));
}

uint32_t changecap_apply_iter(changecap_client *client, changecap_iter *it, uint32_t data, uint32_t notfound,
                              uint32_t conflict, changecap_report *report, changecap_fault *fault){
  RETURN_LOCKED(client, changecap_try_apply(client, it, data, notfound, conflict, report, fault));
}

uint32_t changecap_apply(changecap_client *client, const void *blob, size_t n, uint32_t data, uint32_t notfound,
                         uint32_t conflict, changecap_report *report, changecap_fault *fault){
  changecap_iter it = CHANGECAP_CLOSED;
  uint32_t status = changecap_iter_open(blob, n, &it, fault);
  if( status != CHANGECAP_OK ) return status;
  status = changecap_apply_iter(client, &it, data, notfound, conflict, report, fault);
  changecap_iter_close(&it);
  return status;
}

/* The numbers of the quiet sessions, or a place of none that is not NULL. */
static const uint64_t *quiet_of(const changecap_options *options){
  static const uint64_t none;
  return options->quiet ? options->quiet : &none;
}

uint32_t changecap_apply_iter_with(changecap_client *client, changecap_iter *it, uint32_t data, uint32_t notfound,
                                   uint32_t conflict, const changecap_options *options, changecap_report *report,
                                   changecap_passed *passed, changecap_fault *fault){
  RETURN_LOCKED(client, changecap_try_apply_with(client, it, data, notfound, conflict,
                                                 changecap_bytes(options->filter), options->filter_n,
                                                 quiet_of(options), options->quiet_n, report, passed, fault));
}

uint32_t changecap_apply_with(changecap_client *client, const void *blob, size_t n, uint32_t data, uint32_t notfound,
                              uint32_t conflict, const changecap_options *options, changecap_report *report,
                              changecap_passed *passed, changecap_fault *fault){
  changecap_iter it = CHANGECAP_CLOSED;
  uint32_t status = changecap_iter_open(blob, n, &it, fault);
  if( status != CHANGECAP_OK ) return status;
  status = changecap_apply_iter_with(client, &it, data, notfound, conflict, options, report, passed, fault);
  changecap_iter_close(&it);
  return status;
}

static uint32_t load_opened(changecap_client *client, changecap_iter *it, changecap_report *report,
                            changecap_fault *fault){
  RETURN_LOCKED(client, changecap_try_load(client, it, report, fault));
}

uint32_t changecap_load(changecap_client *client, const void *blob, size_t n, changecap_report *report,
                        changecap_fault *fault){
  changecap_iter it = CHANGECAP_CLOSED;
  uint32_t status = changecap_iter_open(blob, n, &it, fault);
  if( status != CHANGECAP_OK ) return status;
  status = load_opened(client, &it, report, fault);
  changecap_iter_close(&it);
  return status;
}

uint32_t changecap_commit(changecap_client *client, changecap_batch *batch, uint64_t *version, changecap_fault *fault){
#if CHANGECAP_COMBINE
  return posted_commit(client->shared, client, batch, version, fault);
#else
  RETURN_LOCKED(client, changecap_try_commit(client, batch, version, fault));
#endif
}

/* Commits under the mutex, and captures then. Asking for a flag of the session shows first whether it is there. */
static uint32_t commit_and_restart(changecap_client *client, changecap_batch *batch, uint64_t session,
                                   uint64_t *version, changecap_capture *capture, changecap_fault *fault){
  uint32_t status, flag;
  WHEN_FREE(status, changecap_try_session_enable(client, session, CHANGECAP_ASK, &flag, fault));
  if( status != CHANGECAP_OK ) return status;
  WHEN_FREE(status, changecap_try_commit(client, batch, version, fault));
  if( status != CHANGECAP_OK ){
    *version = 0;
    return status;
  }
  WHEN_FREE(status, changecap_try_session_restart(client, session, capture, fault));
  return status;
}

uint32_t changecap_commit_captured(changecap_client *client, changecap_batch *batch, uint64_t session,
                                   uint64_t *version, changecap_capture *capture, changecap_fault *fault){
  history *of = client->shared;
  *version = 0;
  enter(of);
  uint32_t status = commit_and_restart(client, batch, session, version, capture, fault);
  leave(of);
  return status;
}

uint32_t changecap_apply_finish(changecap_client *client, changecap_application *application, changecap_report *report,
                                changecap_fault *fault){
  changecap_batch batch = CHANGECAP_CLOSED;
  changecap_report left;
  uint64_t version;
  uint32_t status = changecap_apply_report(application, &left);
  if( status == CHANGECAP_OK ) status = changecap_apply_end(application, &batch, fault);
  if( status != CHANGECAP_OK ) return status;
  status = changecap_commit(client, &batch, &version, fault);
  changecap_batch_close(&batch);
  if( status == CHANGECAP_OK ){
    *report = left;
    report->version = version;
  }
  return status;
}

uint32_t changecap_snapshot_open(changecap_client *client, changecap_snapshot *snapshot){
  RETURN_LOCKED(client, changecap_try_snapshot_open(client, snapshot));
}

/* ---- Sessions ---- */

uint32_t changecap_session_new(changecap_client *client, uint64_t *session, changecap_fault *fault){
  RETURN_LOCKED(client, changecap_try_session_new(client, session, fault));
}

uint32_t changecap_session_drop(changecap_client *client, uint64_t session, changecap_fault *fault){
  RETURN_LOCKED(client, changecap_try_session_drop(client, session, fault));
}

uint32_t changecap_session_attach(changecap_client *client, uint64_t session, const void *table, size_t n,
                                  changecap_fault *fault){
  RETURN_LOCKED(client, changecap_try_session_attach(client, session, changecap_bytes(table), n, fault));
}

uint32_t changecap_session_attach_all(changecap_client *client, uint64_t session, changecap_fault *fault){
  RETURN_LOCKED(client, changecap_try_session_attach_all(client, session, fault));
}

uint32_t changecap_session_filter(changecap_client *client, uint64_t session, const void *text, size_t n,
                                  changecap_fault *fault){
  RETURN_LOCKED(client, changecap_try_session_filter(client, session, changecap_bytes(text), n, fault));
}

uint32_t changecap_session_diff(changecap_client *client, uint64_t session, const void *from, size_t n,
                                const void *table, size_t m, changecap_fault *fault){
  RETURN_LOCKED(client, changecap_try_session_diff(client, session, changecap_bytes(from), n, changecap_bytes(table),
                                                   m, fault));
}

uint32_t changecap_session_enable(changecap_client *client, uint64_t session, uint32_t set, uint32_t *flag,
                                  changecap_fault *fault){
  RETURN_LOCKED(client, changecap_try_session_enable(client, session, set, flag, fault));
}

uint32_t changecap_session_indirect(changecap_client *client, uint64_t session, uint32_t set, uint32_t *flag,
                                    changecap_fault *fault){
  RETURN_LOCKED(client, changecap_try_session_indirect(client, session, set, flag, fault));
}

uint32_t changecap_session_isempty(changecap_client *client, uint64_t session, uint32_t *flag, changecap_fault *fault){
  RETURN_LOCKED(client, changecap_try_session_isempty(client, session, flag, fault));
}

uint32_t changecap_session_capture(changecap_client *client, uint64_t session, changecap_capture *capture,
                                   changecap_fault *fault){
  RETURN_LOCKED(client, changecap_try_session_capture(client, session, capture, fault));
}

uint32_t changecap_session_restart(changecap_client *client, uint64_t session, changecap_capture *capture,
                                   changecap_fault *fault){
  RETURN_LOCKED(client, changecap_try_session_restart(client, session, capture, fault));
}

/* ---- Words ---- */

const char *changecap_version(void){
  return CHANGECAP_VERSION;
}

const char *changecap_errstr(uint32_t status){
  switch( status ){
    case CHANGECAP_OK:        return "not an error";
    case CHANGECAP_MALFORMED: return "bytes that are no changeset, patchset or record";
    case CHANGECAP_ROOM:      return "a buffer that is too short";
    case CHANGECAP_NOMEM:     return "out of memory";
    case CHANGECAP_PATCHSET:  return "a patchset, where only a changeset serves";
    case CHANGECAP_MISUSE:    return "an argument without a meaning";
    case CHANGECAP_REFUSED:   return "refused by the rules";
    case CHANGECAP_COMMAND:   return "a text that is not one command";
    case CHANGECAP_FULL:      return "a history that takes no further command";
    case CHANGECAP_KIND:      return "a changeset beside a patchset";
    case CHANGECAP_COLUMNS:   return "a table that had other columns, or another key, before";
    case CHANGECAP_FILTER:    return "a text that is no filter";
    case CHANGECAP_BUSY:      return "another call has the state of the history";
    case CHANGECAP_OVERTAKEN: return "a history that is longer than its state";
    case CHANGECAP_CLIENTS:   return "a history that has all the clients that it can have";
    case CHANGECAP_ROW:       return "another row is available";
    case CHANGECAP_DONE:      return "no more rows available";
    default:                  return "unknown status";
  }
}
