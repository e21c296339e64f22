/*
 * What the tests of changecap.h share: memory that can be refused, counts of what holds, and bytes.
 */
#ifndef TESTING_H
#define TESTING_H

#include "changecap.h"

#include <stdio.h>
#include <stdlib.h>
#include <string.h>

/* ---- Memory that can be refused ---- */

void *__real_malloc(size_t n);
void *__real_realloc(void *at, size_t n);

/* Refuses the request for memory that comes behind so many others. */
void refuse_behind(long requests);

/* Whether that request has not come. From now on none is refused. */
int none_refused(void);

/* Makes a call until it is not out of memory. `granted` is whether it was so at once. */
#define AGAIN(call) while( (status = (call)) == CHANGECAP_NOMEM ) granted = 0

/* ---- Counting ---- */

extern long passed, failed;

void count(int holds, const char *file, int line, const char *what);

#define CHECK(holds) count((holds) != 0, __FILE__, __LINE__, #holds)

/* ---- Bytes ---- */

typedef struct bytes {
  uint8_t *at;
  size_t n;
} bytes;

bytes copy_of(const uint8_t *at, size_t n);
bytes of_hex(const char *hex, size_t digits);
int is_hex(bytes is, const char *hex);

/* A record with a field for each letter: i an int, n NULL, t a text, b the hex digits of a blob, u undefined. */
bytes record(const char *letters, ...);

/* Changesets as digits: of the row (1,'x') of the table t, which is inserted, updated to (1,'y') or deleted, of a table
 * with a key of two columns, and of the table u. PATCH is the patchset of INSERT. */
#define INSERT "5402010074001200010000000000000001030178"
#define UPDATE "540201007400170001000000000000000103017800030179"
#define DELETE "5402010074000900010000000000000001030178"
#define PATCH "5002010074001200010000000000000001030178"
#define TWO_KEYS "540300010174001200030178010000000000000002010000000000000001"
#define OTHER_TABLE "540201007500120001000000000000000205"

/* ---- The parts ---- */

/* Reads all of a change at which an iterator stands. */
void read_change(changecap_iter *it);

/* Its records are those of its values. */
void records_agree(changecap_iter *it);

void test_records(void);
void test_rebases(void);
void test_server(void);
void test_batches(void);
void test_applications(void);
void test_examples(void);

/* A blob is applied just where it has no fault. */
void application_agrees(bytes blob, uint32_t status, changecap_fault fault);

#endif
