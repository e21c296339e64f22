/* The loads on changecap through its library for C: by one client, or by several of one history on as many threads, by
** words and numbers and, but for the load `texts`, without any text.
**
** Use: changecap_times LOAD ..
** Each load prints lines 'NAME NANOSECONDS', those of one commit, change, row or transaction. sqlite_times.c has the
** same loads on SQLite, under the same names. A buffer that bytes are written to has room for them: how many there are
** is asked before the clock starts. */
#include "changecap.h"

#include "times.h"

static const char TABLE[] = "t", SAVED[] = "saved";

static void must(uint32_t status, const char *what) { check(status == CHANGECAP_OK, what); }

/* A client, and the batch that it commits. */
typedef struct {
    changecap_client client;
    changecap_batch batch;
} server;

static server table(void) {
    server made = {CHANGECAP_CLOSED, CHANGECAP_CLOSED};
    changecap_fault fault;
    uint64_t version;
    must(changecap_open(&made.client), "open");
    must(changecap_batch_open(&made.batch), "batch");
    must(changecap_create(&made.client, TABLE, 1, (const uint8_t[]){1, 0}, 2, &version, &fault), "create");
    return made;
}

static void close_all(server *of) {
    changecap_batch_close(&of->batch);
    changecap_close(&of->client);
}

static uint64_t session(server *of) {
    changecap_fault fault;
    uint64_t made;
    must(changecap_session_new(&of->client, &made, &fault), "session");
    must(changecap_session_attach(&of->client, made, TABLE, 1, &fault), "attach");
    return made;
}

static void insert(server *of, int64_t key) {
    changecap_fault fault;
    uint8_t row[CHANGECAP_FIELD_MAX(0) + CHANGECAP_FIELD_MAX(1)];
    size_t length = changecap_put_int(row, key);
    length += changecap_put_text(row + length, "x", 1);
    must(changecap_insert(&of->batch, TABLE, 1, row, length, CHANGECAP_DIRECT, &fault), "insert");
}

static void update(server *of, int64_t key, int64_t number) {
    changecap_fault fault;
    uint8_t of_key[CHANGECAP_FIELD_MAX(0)], fields[2 * CHANGECAP_FIELD_MAX(0)];
    size_t width = changecap_put_int(of_key, key), length = changecap_put_undefined(fields);
    length += changecap_put_int(fields + length, number);
    must(changecap_update(&of->batch, TABLE, 1, of_key, width, 0, fields, length, CHANGECAP_DIRECT, &fault), "update");
}

static void update_text(server *of, int64_t key, const char *text) {
    changecap_fault fault;
    uint8_t of_key[CHANGECAP_FIELD_MAX(0)], fields[100];
    size_t width = changecap_put_int(of_key, key), length = changecap_put_undefined(fields);
    length += changecap_put_text(fields + length, text, strlen(text));
    must(changecap_update(&of->batch, TABLE, 1, of_key, width, 0, fields, length, CHANGECAP_DIRECT, &fault), "update");
}

/* Commits the operations that were put together, and answers the new version. */
static uint64_t commit(server *of) {
    changecap_fault fault;
    uint64_t version;
    must(changecap_commit(&of->client, &of->batch, &version, &fault), "commit");
    return version;
}

static void insert_all(server *of, long count, int scrambled) {
    for (long number = 0; number < count; number++) {
        insert(of, key_of(number, scrambled));
        commit(of);
    }
}

/* Inserts rows in batches, and answers the new version. */
static uint64_t insert_together(server *of, long count, int scrambled) {
    uint64_t version = 0;
    for (long number = 0; number < count; number++) {
        insert(of, key_of(number, scrambled));
        if ((number + 1) % BATCH == 0 || number + 1 == count) version = commit(of);
    }
    return version;
}

static void update_all(server *of, long rows) {
    for (long number = 0; number < COMMITS; number++) {
        update(of, number % rows, number);
        commit(of);
    }
}

typedef struct {
    uint8_t *at;
    size_t length, room;
} bytes;

/* A buffer with room for so many bytes. */
static bytes buffer(size_t room) {
    bytes made = {malloc(room + 1), 0, room};
    check(made.at != NULL, "memory");
    return made;
}

/* Writes the changeset of a session, in a buffer that has room for it. */
static void write_changeset(server *of, uint64_t session, bytes *to) {
    changecap_capture capture = CHANGECAP_CLOSED;
    changecap_fault fault;
    must(changecap_session_capture(&of->client, session, &capture, &fault), "capture");
    must(changecap_capture_changeset(&capture, CHANGECAP_KEYS_PLACES, to->at, to->room, &to->length), "changeset");
    changecap_capture_close(&capture);
}

/* A buffer for the changeset of a session. */
static bytes room_for_changeset(server *of, uint64_t session) {
    changecap_capture capture = CHANGECAP_CLOSED;
    changecap_fault fault;
    size_t length;
    must(changecap_session_capture(&of->client, session, &capture, &fault), "capture");
    uint32_t status = changecap_capture_changeset(&capture, CHANGECAP_KEYS_PLACES, NULL, 0, &length);
    check(status == CHANGECAP_ROOM, "a changeset's length");
    changecap_capture_close(&capture);
    return buffer(length);
}

static bytes changeset(server *of, uint64_t session) {
    bytes made = room_for_changeset(of, session);
    write_changeset(of, session, &made);
    return made;
}

static void capture(const char *name, server *of, uint64_t session) {
    bytes made = room_for_changeset(of, session);
    double start = now();
    write_changeset(of, session, &made);
    report(name, start, COMMITS);
    free(made.at);
}

/* Commits of one inserted row under this many sessions, and a capture of one of them. */
static void inserts(const char *name, const char *of_capture, int count, int scrambled) {
    server made = table();
    uint64_t last = 0;
    for (int at = 0; at < count; at++) last = session(&made);
    double start = now();
    insert_all(&made, COMMITS, scrambled);
    report(name, start, COMMITS);
    if (count > 0) capture(of_capture, &made, last);
    close_all(&made);
}

static void save(server *of) {
    changecap_fault fault;
    must(changecap_save(&of->client, SAVED, sizeof SAVED - 1, &fault), "save");
}

/* Commits of one inserted row under a session, and the tables saved in place of those before at intervals. */
static void inserts_saved(const char *name, int scrambled) {
    server made = table();
    session(&made);
    double start = now();
    for (long number = 0; number < COMMITS; number++) {
        insert(&made, key_of(number, scrambled));
        commit(&made);
        if ((number + 1) % ONE_IN == 0) save(&made);
    }
    report(name, start, COMMITS);
    close_all(&made);
}

/* Commits of one update, of this many rows in turn, under this many sessions. */
static void updates(const char *name, long rows, int count) {
    server made = table();
    insert_together(&made, rows, 0);
    for (int at = 0; at < count; at++) session(&made);
    double start = now();
    update_all(&made, rows);
    report(name, start, COMMITS);
    close_all(&made);
}

static void batch(const char *name, int scrambled) {
    server made = table();
    double start = now();
    insert_together(&made, BATCH, scrambled);
    report(name, start, BATCH);
    close_all(&made);
}

/* Goes through the rows that were read, and answers how many there are. They are closed. */
static long read_rows(changecap_rows *of) {
    changecap_value key, text;
    long rows = 0, sum = 0;
    for (; changecap_step(of) == CHANGECAP_ROW; rows++) {
        must(changecap_column(of, 0, &key), "column");
        must(changecap_column(of, 1, &text), "column");
        sum += (key.number >= 0) + (text.type == CHANGECAP_INTEGER || text.len == 1);
    }
    changecap_rows_close(of);
    check(sum == 2 * rows, "rows");
    return rows;
}

static void scan(void) {
    server made = table();
    changecap_snapshot snapshot = CHANGECAP_CLOSED;
    changecap_rows rows = CHANGECAP_CLOSED;
    changecap_fault fault;
    insert_together(&made, COMMITS, 0);
    double start = now();
    must(changecap_snapshot_open(&made.client, &snapshot), "snapshot");
    must(changecap_scan(&snapshot, TABLE, 1, &rows, &fault), "scan");
    check(read_rows(&rows) == COMMITS, "scan");
    changecap_snapshot_close(&snapshot);
    report("scan", start, COMMITS);
    close_all(&made);
}

/* Reads a row of a snapshot by its key. */
static void read_row(changecap_snapshot *snapshot, int64_t key) {
    changecap_rows rows = CHANGECAP_CLOSED;
    changecap_fault fault;
    uint8_t of_key[CHANGECAP_FIELD_MAX(0)];
    size_t width = changecap_put_int(of_key, key);
    must(changecap_get(snapshot, TABLE, 1, of_key, width, 0, &rows, &fault), "get");
    check(read_rows(&rows) == 1, "get");
}

/* Rows that are read by their keys. */
static void get(void) {
    server made = table();
    changecap_snapshot snapshot = CHANGECAP_CLOSED;
    insert_together(&made, COMMITS, 0);
    double start = now();
    must(changecap_snapshot_open(&made.client, &snapshot), "snapshot");
    for (long number = 0; number < COMMITS; number++) read_row(&snapshot, key_to_read(number));
    changecap_snapshot_close(&snapshot);
    report("get", start, COMMITS);
    close_all(&made);
}

static void apply(const char *name, server *of, bytes blob) {
    changecap_fault fault;
    changecap_report made;
    double start = now();
    must(changecap_apply(&of->client, blob.at, blob.length, CHANGECAP_ABORT, CHANGECAP_ABORT, CHANGECAP_ABORT, &made,
                         &fault),
         "apply");
    report(name, start, COMMITS);
    check(made.applied == COMMITS, "apply");
}

static void read_changes(changecap_iter *at) {
    changecap_value key, text;
    long changes = 0, sum = 0;
    for (; changecap_iter_next(at) == CHANGECAP_ROW; changes++) {
        must(changecap_iter_new(at, 0, &key), "new");
        must(changecap_iter_new(at, 1, &text), "new");
        sum += (key.number >= 0) + (long)text.len;
    }
    changecap_iter_close(at);
    check(changes == COMMITS && sum == 2 * COMMITS, "read");
}

static void read_blob(bytes blob) {
    changecap_iter at = CHANGECAP_CLOSED;
    changecap_fault fault;
    double start = now();
    must(changecap_iter_open(blob.at, blob.length, &at, &fault), "open");
    read_changes(&at);
    report("read", start, COMMITS);
}

static void read_pieces(bytes blob) {
    changecap_decoder decoder = CHANGECAP_CLOSED;
    changecap_iter at = CHANGECAP_CLOSED;
    changecap_fault fault;
    double start = now();
    must(changecap_decoder_open(&decoder), "open");
    for (size_t from = 0; from < blob.length; from += PIECE) {
        size_t length = blob.length - from < PIECE ? blob.length - from : PIECE;
        must(changecap_decoder_feed(&decoder, blob.at + from, length, &fault), "feed");
    }
    must(changecap_decoder_finish(&decoder, &at, &fault), "finish");
    read_changes(&at);
    report("read_pieces", start, COMMITS);
}

static void invert(bytes blob) {
    bytes to = buffer(blob.length);
    changecap_fault fault;
    double start = now();
    must(changecap_invert(blob.at, blob.length, CHANGECAP_KEYS_PLACES, to.at, to.room, &to.length, &fault), "invert");
    report("invert", start, COMMITS);
    free(to.at);
}

static void concat(bytes first, bytes second) {
    bytes to = buffer(first.length + second.length);
    changecap_fault fault;
    size_t refused;
    double start = now();
    must(changecap_concat(first.at, first.length, second.at, second.length, CHANGECAP_KEYS_PLACES, to.at, to.room,
                          &to.length, &fault, &refused),
         "concat");
    report("concat", start, 2 * COMMITS);
    free(to.at);
}

static void json(bytes blob) {
    changecap_fault fault;
    uint8_t none;
    size_t length;
    uint32_t status = changecap_json(blob.at, blob.length, &none, 0, &length, &fault);
    check(status == CHANGECAP_ROOM, "a document's length");
    bytes to = buffer(length);
    double start = now();
    must(changecap_json(blob.at, blob.length, to.at, to.room, &to.length, &fault), "json");
    report("json", start, COMMITS);
    free(to.at);
}

/* A changeset of inserts is read, whole and in pieces, written as JSON, inverted and applied to an empty table, and
** one of updates to the rows. The two are concatenated. */
static void blobs(void) {
    server made = table();
    uint64_t first = session(&made);
    insert_together(&made, COMMITS, 0);
    bytes inserted = changeset(&made, first);
    uint64_t second = session(&made);
    for (long number = 0; number < COMMITS; number++) {
        update_text(&made, number, "y");
        if ((number + 1) % BATCH == 0) commit(&made);
    }
    bytes updated = changeset(&made, second);
    close_all(&made);
    read_blob(inserted);
    read_pieces(inserted);
    json(inserted);
    invert(inserted);
    concat(inserted, updated);
    made = table();
    apply("apply_inserts", &made, inserted);
    apply("apply_updates", &made, updated);
    close_all(&made);
    free(inserted.at);
    free(updated.at);
}

static void diff(void) {
    server made = table();
    changecap_fault fault;
    insert_together(&made, COMMITS, 0);
    save(&made);
    for (long number = 0; number < COMMITS / ONE_IN; number++) update(&made, number * ONE_IN, number);
    commit(&made);
    uint64_t first = session(&made);
    double start = now();
    must(changecap_session_diff(&made.client, first, SAVED, sizeof SAVED - 1, TABLE, 1, &fault), "diff");
    report("diff", start, COMMITS);
    uint32_t is_empty;
    must(changecap_session_isempty(&made.client, first, &is_empty, &fault), "isempty");
    check(!is_empty, "diff");
    close_all(&made);
}

/* Reads a row of a transaction by its key, and updates it. */
static void change_row(changecap_transaction *of, int64_t key) {
    changecap_rows rows = CHANGECAP_CLOSED;
    changecap_fault fault;
    uint8_t of_key[CHANGECAP_FIELD_MAX(0)], fields[2 * CHANGECAP_FIELD_MAX(0)];
    size_t width = changecap_put_int(of_key, key), length = changecap_put_undefined(fields);
    length += changecap_put_int(fields + length, 1);
    must(changecap_transaction_get(of, TABLE, 1, of_key, width, 0, &rows, &fault), "get");
    check(read_rows(&rows) == 1, "get");
    must(changecap_transaction_update(of, TABLE, 1, of_key, width, 0, fields, length, CHANGECAP_DIRECT, &fault),
         "update");
}

/* Makes the batch of a transaction that reads ten rows and updates them. */
static void transact(server *of, int64_t first) {
    changecap_snapshot snapshot = CHANGECAP_CLOSED;
    changecap_transaction transaction = CHANGECAP_CLOSED;
    must(changecap_snapshot_open(&of->client, &snapshot), "snapshot");
    must(changecap_begin(&snapshot, &transaction), "begin");
    changecap_snapshot_close(&snapshot);
    for (int64_t key = first; key < first + ROWS_A_TRANSACTION; key++) change_row(&transaction, key);
    changecap_batch_close(&of->batch);
    must(changecap_end(&transaction, &of->batch), "end");
}

/* Transactions that each read ten rows of a million and update them; or batches of the updates alone. */
static void transactions(const char *name, int is_read) {
    server made = table();
    insert_together(&made, BIG_TABLE, 0);
    double start = now();
    for (int64_t number = 0; number < TRANSACTIONS; number++) {
        int64_t first = first_of(number);
        if (is_read) transact(&made, first);
        for (int64_t key = first; !is_read && key < first + ROWS_A_TRANSACTION; key++) update(&made, key, 1);
        commit(&made);
    }
    report(name, start, TRANSACTIONS);
    close_all(&made);
}

static void call(server *of, const char *text, int length) {
    changecap_fault fault;
    must(changecap_call(&of->client, text, (size_t)length, &fault), text);
}

/* Commits of one insert, or of one update of 1,000 rows in turn, under a session, each as the text of a command. */
static void texts(const char *name, int is_update) {
    server made = table();
    char text[100];
    if (is_update) insert_together(&made, UPDATED, 0);
    session(&made);
    double start = now();
    for (long number = 0; number < COMMITS; number++) {
        int length;
        if (is_update) {
            length = snprintf(text, sizeof text, "commit update t key(%ld) set 1 = %ld", number % UPDATED, number);
        } else {
            length = snprintf(text, sizeof text, "commit insert t (%ld,'x')", number);
        }
        call(&made, text, length);
    }
    report(name, start, COMMITS);
    close_all(&made);
}

/* A thread of a load of several, with its client. */
typedef struct {
    server of;
    uint64_t session;
    int number, threads;
} worker;

/* Commits of one inserted row, in the keys of the thread's own. */
static void *commits_of(void *given) {
    worker *own = given;
    for (long number = own->number; number < COMMITS; number += own->threads) {
        insert(&own->of, number);
        commit(&own->of);
    }
    return NULL;
}

/* Snapshots of which ten rows are read. */
static void *reads_of(void *given) {
    worker *own = given;
    for (long number = own->number; number < TRANSACTIONS; number += own->threads) {
        changecap_snapshot snapshot = CHANGECAP_CLOSED;
        must(changecap_snapshot_open(&own->of.client, &snapshot), "snapshot");
        for (long row = 0; row < ROWS_A_TRANSACTION; row++)
            read_row(&snapshot, key_to_read(number * ROWS_A_TRANSACTION + row));
        changecap_snapshot_close(&snapshot);
    }
    return NULL;
}

/* Captures of a session as bytes. */
static void *captures_of(void *given) {
    worker *own = given;
    bytes made = room_for_changeset(&own->of, own->session);
    for (long number = own->number; number < CAPTURES; number += own->threads)
        write_changeset(&own->of, own->session, &made);
    free(made.at);
    return NULL;
}

/* The same work by so many threads, each with a client of one history whose table has rows and a session. */
static void threads(const char *name, int count, void *(*work)(void *), long rows, long done) {
    server made = table();
    worker workers[THREADS];
    uint64_t first = session(&made);
    insert_together(&made, rows, 0);
    for (int at = 0; at < count; at++) {
        workers[at] = (worker){{CHANGECAP_CLOSED, CHANGECAP_CLOSED}, first, at, count};
        must(changecap_join(&workers[at].of.client, &made.client), "join");
        must(changecap_batch_open(&workers[at].of.batch), "batch");
    }
    together(name, count, work, workers, sizeof *workers, done);
    for (int at = 0; at < count; at++) close_all(&workers[at].of);
    close_all(&made);
}

static void load(const char *name) {
    if (!strcmp(name, "commits")) {
        inserts("inserts", "capture", 1, 0);
        inserts("inserts_scrambled", "capture_scrambled", 1, 1);
        inserts_saved("inserts_saved", 0);
        inserts_saved("inserts_saved_scrambled", 1);
        updates("updates_of_1000", UPDATED, 1);
        updates("updates_of_1", 1, 1);
    } else if (!strcmp(name, "texts")) {
        texts("inserts_as_text", 0);
        texts("updates_as_text", 1);
    } else if (!strcmp(name, "sessions")) {
        inserts("inserts_64", "capture_64", SESSIONS, 0);
        updates("updates_64", UPDATED, SESSIONS);
        diff();
    } else if (!strcmp(name, "tables")) {
        inserts("inserts_unrecorded", "", 0, 0);
        updates("updates_unrecorded", UPDATED, 0);
        batch("batch", 0);
        batch("batch_scrambled", 1);
        scan();
        get();
    } else if (!strcmp(name, "blobs")) {
        blobs();
    } else if (!strcmp(name, "transactions")) {
        transactions("transactions", 1);
        transactions("batches_of_10", 0);
    } else if (!strcmp(name, "threads")) {
        threads("commits_1", 1, commits_of, 0, COMMITS);
        threads("commits_2", 2, commits_of, 0, COMMITS);
        threads("commits_4", 4, commits_of, 0, COMMITS);
        threads("reads_1", 1, reads_of, COMMITS, TRANSACTIONS);
        threads("reads_4", 4, reads_of, COMMITS, TRANSACTIONS);
        threads("captures_1", 1, captures_of, UPDATED, CAPTURES * UPDATED);
        threads("captures_4", 4, captures_of, UPDATED, CAPTURES * UPDATED);
    } else {
        check(0, "no such load");
    }
}

int main(int count, char **words) {
    for (int at = 1; at < count; at++) load(words[at]);
    return 0;
}
