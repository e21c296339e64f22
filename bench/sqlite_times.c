/* The loads on SQLite with its session extension: in memory, on one connection, with prepared statements and, but for
** the load `texts`, without any text.
**
** Use: sqlite_times LOAD ..
** Each load prints lines 'NAME NANOSECONDS', those of one commit, change, row or transaction. The load `version`
** prints SQLite's version. changecap_times.c has the same loads on changecap, under the same names. */
#define SQLITE_ENABLE_SESSION
#define SQLITE_ENABLE_PREUPDATE_HOOK
#include <sqlite3.h>

#include "times.h"

static void run(sqlite3 *db, const char *sql) { check(sqlite3_exec(db, sql, 0, 0, 0) == SQLITE_OK, sql); }

static sqlite3 *table(void) {
    sqlite3 *db;
    check(sqlite3_open(":memory:", &db) == SQLITE_OK, "open");
    run(db, "CREATE TABLE t(c0, c1, PRIMARY KEY(c0))");
    return db;
}

static sqlite3_stmt *prepared(sqlite3 *db, const char *sql) {
    sqlite3_stmt *statement;
    int code = sqlite3_prepare_v3(db, sql, -1, SQLITE_PREPARE_PERSISTENT, &statement, 0);
    check(code == SQLITE_OK, sql);
    return statement;
}

static sqlite3_session *session(sqlite3 *db) {
    sqlite3_session *made;
    check(sqlite3session_create(db, "main", &made) == SQLITE_OK, "session");
    check(sqlite3session_attach(made, "t") == SQLITE_OK, "attach");
    return made;
}

static void done(sqlite3_stmt *statement) {
    check(sqlite3_step(statement) == SQLITE_DONE, "step");
    sqlite3_reset(statement);
}

static void insert(sqlite3_stmt *statement, int64_t key) {
    sqlite3_bind_int64(statement, 1, key);
    sqlite3_bind_text(statement, 2, "x", 1, SQLITE_STATIC);
    done(statement);
}

static void update(sqlite3_stmt *statement, int64_t key, int64_t number) {
    sqlite3_bind_int64(statement, 1, key);
    sqlite3_bind_int64(statement, 2, number);
    done(statement);
}

static const char INSERT[] = "INSERT INTO t VALUES(?1, ?2)";
static const char UPDATE[] = "UPDATE t SET c1 = ?2 WHERE c0 = ?1";

static void insert_all(sqlite3 *db, long count, int scrambled) {
    sqlite3_stmt *statement = prepared(db, INSERT);
    for (long number = 0; number < count; number++) insert(statement, key_of(number, scrambled));
    sqlite3_finalize(statement);
}

static void insert_together(sqlite3 *db, long count, int scrambled) {
    run(db, "BEGIN");
    insert_all(db, count, scrambled);
    run(db, "COMMIT");
}

static void update_all(sqlite3 *db, long rows, long step) {
    sqlite3_stmt *statement = prepared(db, UPDATE);
    for (long number = 0; number < COMMITS; number++) update(statement, number % rows * step, number);
    sqlite3_finalize(statement);
}

static void *changeset(sqlite3_session *of, int *length) {
    void *content;
    check(sqlite3session_changeset(of, length, &content) == SQLITE_OK, "changeset");
    return content;
}

static void close_all(sqlite3 *db, sqlite3_session **sessions, int count) {
    for (int at = 0; at < count; at++) sqlite3session_delete(sessions[at]);
    check(sqlite3_close_v2(db) == SQLITE_OK, "close");
}

/* Commits of one inserted row under this many sessions, and a capture of the first. */
static void inserts(const char *name, const char *of_capture, int count, int scrambled) {
    sqlite3 *db = table();
    sqlite3_session *sessions[SESSIONS];
    int length;
    for (int at = 0; at < count; at++) sessions[at] = session(db);
    double start = now();
    insert_all(db, COMMITS, scrambled);
    report(name, start, COMMITS);
    if (count > 0) {
        start = now();
        void *content = changeset(sessions[0], &length);
        report(of_capture, start, COMMITS);
        sqlite3_free(content);
    }
    close_all(db, sessions, count);
}

/* Commits of one update, of this many rows in turn, under this many sessions. */
static void updates(const char *name, long rows, int count) {
    sqlite3 *db = table();
    sqlite3_session *sessions[SESSIONS];
    insert_together(db, rows, 0);
    for (int at = 0; at < count; at++) sessions[at] = session(db);
    double start = now();
    update_all(db, rows, 1);
    report(name, start, COMMITS);
    close_all(db, sessions, count);
}

static void batch(const char *name, int scrambled) {
    sqlite3 *db = table();
    double start = now();
    insert_together(db, BATCH, scrambled);
    report(name, start, BATCH);
    close_all(db, 0, 0);
}

static void scan(void) {
    sqlite3 *db = table();
    insert_together(db, COMMITS, 0);
    sqlite3_stmt *statement = prepared(db, "SELECT c0, c1 FROM t ORDER BY c0");
    double start = now();
    long rows = 0, bytes = 0;
    while (sqlite3_step(statement) == SQLITE_ROW) {
        rows += sqlite3_column_int64(statement, 0) >= 0;
        bytes += sqlite3_column_bytes(statement, 1);
    }
    check(rows == COMMITS && bytes == COMMITS, "scan");
    report("scan", start, COMMITS);
    sqlite3_finalize(statement);
    close_all(db, 0, 0);
}

/* Rows that are read by their keys. */
static void get(void) {
    sqlite3 *db = table();
    insert_together(db, COMMITS, 0);
    sqlite3_stmt *statement = prepared(db, "SELECT c0, c1 FROM t WHERE c0 = ?1");
    double start = now();
    long rows = 0, bytes = 0;
    for (long number = 0; number < COMMITS; number++) {
        sqlite3_bind_int64(statement, 1, key_to_read(number));
        check(sqlite3_step(statement) == SQLITE_ROW, "get");
        rows += sqlite3_column_int64(statement, 0) >= 0;
        bytes += sqlite3_column_bytes(statement, 1);
        sqlite3_reset(statement);
    }
    check(rows == COMMITS && bytes == COMMITS, "get");
    report("get", start, COMMITS);
    sqlite3_finalize(statement);
    close_all(db, 0, 0);
}

static int abort_all(void *context, int kind, sqlite3_changeset_iter *at) {
    (void)context, (void)kind, (void)at;
    return SQLITE_CHANGESET_ABORT;
}

static void apply(const char *name, sqlite3 *db, int length, void *content) {
    double start = now();
    check(sqlite3changeset_apply(db, length, content, 0, abort_all, 0) == SQLITE_OK, "apply");
    report(name, start, COMMITS);
}

static void read_changes(sqlite3_changeset_iter *at) {
    sqlite3_value *value;
    long changes = 0, sum = 0;
    for (; sqlite3changeset_next(at) == SQLITE_ROW; changes++) {
        sqlite3changeset_new(at, 0, &value);
        sum += sqlite3_value_int64(value) >= 0;
        sqlite3changeset_new(at, 1, &value);
        sum += sqlite3_value_bytes(value);
    }
    check(sqlite3changeset_finalize(at) == SQLITE_OK && changes == COMMITS && sum == 2 * COMMITS, "read");
}

static void read_blob(int length, void *content) {
    sqlite3_changeset_iter *at;
    double start = now();
    check(sqlite3changeset_start(&at, length, content) == SQLITE_OK, "start");
    read_changes(at);
    report("read", start, COMMITS);
}

/* What is left of a blob that is read in pieces. */
typedef struct {
    const char *content;
    int length;
} rest;

static int next_piece(void *context, void *to, int *length) {
    rest *of = context;
    if (*length > of->length) *length = of->length;
    memcpy(to, of->content, (size_t)*length);
    of->content += *length;
    of->length -= *length;
    return SQLITE_OK;
}

static void read_pieces(int length, void *content) {
    sqlite3_changeset_iter *at;
    rest of = {content, length};
    int piece = PIECE;
    check(sqlite3session_config(SQLITE_SESSION_CONFIG_STRMSIZE, &piece) == SQLITE_OK, "config");
    double start = now();
    check(sqlite3changeset_start_strm(&at, next_piece, &of) == SQLITE_OK, "start");
    read_changes(at);
    report("read_pieces", start, COMMITS);
}

static void invert(int length, void *content) {
    int inverse_length;
    void *inverse;
    double start = now();
    check(sqlite3changeset_invert(length, content, &inverse_length, &inverse) == SQLITE_OK, "invert");
    report("invert", start, COMMITS);
    sqlite3_free(inverse);
}

static void concat(int length, void *content, int later_length, void *later) {
    int joined_length;
    void *joined;
    double start = now();
    int code = sqlite3changeset_concat(length, content, later_length, later, &joined_length, &joined);
    check(code == SQLITE_OK, "concat");
    report("concat", start, 2 * COMMITS);
    sqlite3_free(joined);
}

/* A changeset of inserts is read, whole and in pieces, inverted and applied to an empty table, and one of updates to
** the rows. The two are concatenated. */
static void blobs(void) {
    sqlite3 *db = table();
    sqlite3_session *first = session(db);
    int length, update_length;
    insert_together(db, COMMITS, 0);
    void *inserted = changeset(first, &length);
    sqlite3_session *second = session(db);
    run(db, "UPDATE t SET c1 = 'y'");
    void *updated = changeset(second, &update_length);
    close_all(db, (sqlite3_session *[]){first, second}, 2);
    read_blob(length, inserted);
    read_pieces(length, inserted);
    invert(length, inserted);
    concat(length, inserted, update_length, updated);
    db = table();
    apply("apply_inserts", db, length, inserted);
    apply("apply_updates", db, update_length, updated);
    close_all(db, 0, 0);
    sqlite3_free(inserted);
    sqlite3_free(updated);
}

static void diff(void) {
    sqlite3 *db = table();
    insert_together(db, COMMITS, 0);
    run(db, "ATTACH ':memory:' AS saved; CREATE TABLE saved.t(c0, c1, PRIMARY KEY(c0));"
            "INSERT INTO saved.t SELECT * FROM main.t");
    sqlite3_stmt *statement = prepared(db, UPDATE);
    for (long number = 0; number < COMMITS / ONE_IN; number++) update(statement, number * ONE_IN, number);
    sqlite3_finalize(statement);
    sqlite3_session *made = session(db);
    double start = now();
    check(sqlite3session_diff(made, "saved", "t", 0) == SQLITE_OK, "diff");
    report("diff", start, COMMITS);
    check(!sqlite3session_isempty(made), "diff");
    close_all(db, &made, 1);
}

/* Transactions that each read ten rows of a million and update them. */
static void transactions(const char *name, int is_read) {
    sqlite3 *db = table();
    insert_together(db, BIG_TABLE, 0);
    sqlite3_stmt *begin = prepared(db, "BEGIN IMMEDIATE"), *commit = prepared(db, "COMMIT");
    sqlite3_stmt *get = prepared(db, "SELECT c1 FROM t WHERE c0 = ?1"), *set = prepared(db, UPDATE);
    double start = now();
    for (int64_t number = 0; number < TRANSACTIONS; number++) {
        int64_t first = first_of(number);
        done(begin);
        for (int64_t key = first; key < first + ROWS_A_TRANSACTION; key++) {
            if (is_read) {
                sqlite3_bind_int64(get, 1, key);
                check(sqlite3_step(get) == SQLITE_ROW && sqlite3_column_bytes(get, 0) > 0, "get");
                sqlite3_reset(get);
            }
            update(set, key, 1);
        }
        done(commit);
    }
    report(name, start, TRANSACTIONS);
    sqlite3_finalize(begin), sqlite3_finalize(commit), sqlite3_finalize(get), sqlite3_finalize(set);
    close_all(db, 0, 0);
}

/* Commits of one insert, or of one update of 1,000 rows in turn, under a session, each as the text of a statement. */
static void texts(const char *name, int is_update) {
    sqlite3 *db = table();
    char sql[100];
    if (is_update) insert_together(db, UPDATED, 0);
    sqlite3_session *made = session(db);
    double start = now();
    for (long number = 0; number < COMMITS; number++) {
        if (is_update) {
            snprintf(sql, sizeof sql, "UPDATE t SET c1 = %ld WHERE c0 = %ld", number, number % UPDATED);
        } else {
            snprintf(sql, sizeof sql, "INSERT INTO t VALUES(%ld, 'x')", number);
        }
        run(db, sql);
    }
    report(name, start, COMMITS);
    close_all(db, &made, 1);
}

/* A thread of a load of several. All use one connection, with its statements, behind one lock. */
typedef struct {
    pthread_mutex_t *lock;
    sqlite3_stmt *insert, *get, *begin, *commit;
    sqlite3_session *session;
    int number, threads;
} worker;

/* Commits of one inserted row, in the keys of the thread's own. */
static void *commits_of(void *given) {
    worker *own = given;
    for (long number = own->number; number < COMMITS; number += own->threads) {
        pthread_mutex_lock(own->lock);
        insert(own->insert, number);
        pthread_mutex_unlock(own->lock);
    }
    return NULL;
}

/* Transactions that each read ten rows. */
static void *reads_of(void *given) {
    worker *own = given;
    for (long number = own->number; number < TRANSACTIONS; number += own->threads) {
        pthread_mutex_lock(own->lock);
        done(own->begin);
        for (long row = 0; row < ROWS_A_TRANSACTION; row++) {
            sqlite3_bind_int64(own->get, 1, key_to_read(number * ROWS_A_TRANSACTION + row));
            check(sqlite3_step(own->get) == SQLITE_ROW && sqlite3_column_bytes(own->get, 0) == 1, "get");
            sqlite3_reset(own->get);
        }
        done(own->commit);
        pthread_mutex_unlock(own->lock);
    }
    return NULL;
}

/* Captures of a session as bytes. */
static void *captures_of(void *given) {
    worker *own = given;
    for (long number = own->number; number < CAPTURES; number += own->threads) {
        int length;
        pthread_mutex_lock(own->lock);
        void *content = changeset(own->session, &length);
        pthread_mutex_unlock(own->lock);
        sqlite3_free(content);
    }
    return NULL;
}

/* The same work by so many threads, on one connection whose table has rows and a session. */
static void threads(const char *name, int count, void *(*work)(void *), long rows, long amount) {
    pthread_mutex_t lock = PTHREAD_MUTEX_INITIALIZER;
    sqlite3 *db = table();
    sqlite3_session *made = session(db);
    worker workers[THREADS];
    insert_together(db, rows, 0);
    worker first = {&lock, prepared(db, INSERT), prepared(db, "SELECT c1 FROM t WHERE c0 = ?1"),
                    prepared(db, "BEGIN"), prepared(db, "COMMIT"), made, 0, count};
    for (int at = 0; at < count; at++) {
        workers[at] = first;
        workers[at].number = at;
    }
    together(name, count, work, workers, sizeof *workers, amount);
    sqlite3_finalize(first.insert), sqlite3_finalize(first.get);
    sqlite3_finalize(first.begin), sqlite3_finalize(first.commit);
    close_all(db, &made, 1);
}

static void load(const char *name) {
    if (!strcmp(name, "version")) {
        printf("%s\n", sqlite3_libversion());
    } else if (!strcmp(name, "commits")) {
        inserts("inserts", "capture", 1, 0);
        inserts("inserts_scrambled", "capture_scrambled", 1, 1);
        updates("updates_of_1000", UPDATED, 1);
        updates("updates_of_1", 1, 1);
    } else if (!strcmp(name, "texts")) {
        texts("inserts_as_text", 0);
        texts("updates_as_text", 1);
    } else if (!strcmp(name, "sessions")) {
        inserts("inserts_64", "capture_64", SESSIONS, 0);
        updates("updates_64", UPDATED, SESSIONS);
        diff();
    } else if (!strcmp(name, "tables")) {
        inserts("inserts_unrecorded", "", 0, 0);
        updates("updates_unrecorded", UPDATED, 0);
        batch("batch", 0);
        batch("batch_scrambled", 1);
        scan();
        get();
    } else if (!strcmp(name, "blobs")) {
        blobs();
    } else if (!strcmp(name, "transactions")) {
        transactions("transactions", 1);
        transactions("batches_of_10", 0);
    } else if (!strcmp(name, "threads")) {
        threads("commits_1", 1, commits_of, 0, COMMITS);
        threads("commits_2", 2, commits_of, 0, COMMITS);
        threads("commits_4", 4, commits_of, 0, COMMITS);
        threads("reads_1", 1, reads_of, COMMITS, TRANSACTIONS);
        threads("reads_4", 4, reads_of, COMMITS, TRANSACTIONS);
        threads("captures_1", 1, captures_of, UPDATED, CAPTURES * UPDATED);
        threads("captures_4", 4, captures_of, UPDATED, CAPTURES * UPDATED);
    } else {
        check(0, "no such load");
    }
}

int main(int count, char **words) {
    for (int at = 1; at < count; at++) load(words[at]);
    return 0;
}
