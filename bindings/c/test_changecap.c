/*
 * Tests of the calls of changecap.h: test_changecap BLOBS COUNT
 *
 * Each line of the file BLOBS is 'HEX KIND AT', the bytes of a blob and its fault, or 'HEX 0 0' where it has none. Then
 * COUNT damaged blobs are made of those, always the same ones. Each call gets buffers that are exactly as long as the
 * lengths that it is given, so that a sanitizer sees what goes beyond. The last line is 'N passed, M failed'.
 *
 * It is linked with -Wl,--wrap=malloc,--wrap=realloc, to refuse memory.
 */
#include "testing.h"

#include <stdarg.h>

/* ---- Memory that can be refused ---- */

/* How many requests are granted before one is refused. None is refused while it is negative. */
static long granted_before = -1;

static int is_refused(void){
  return granted_before >= 0 && granted_before-- == 0;
}

void refuse_behind(long requests){
  granted_before = requests;
}

int none_refused(void){
  int granted = granted_before >= 0;
  granted_before = -1;
  return granted;
}

void *__wrap_malloc(size_t n){
  return is_refused() ? NULL : __real_malloc(n);
}

void *__wrap_realloc(void *at, size_t n){
  return is_refused() ? NULL : __real_realloc(at, n);
}

/* ---- Counting ---- */

long passed, failed;

void count(int holds, const char *file, int line, const char *what){
  if( holds ){
    passed++;
  }else{
    failed++;
    printf("%s:%d: %s\n", file, line, what);
  }
}

/* ---- Bytes ---- */

bytes copy_of(const uint8_t *at, size_t n){
  bytes copy = { __real_malloc(n ? n : 1), n };
  if( n ) memcpy(copy.at, at, n);
  return copy;
}

static int digit(char c){
  return c <= '9' ? c - '0' : (c | 32) - 'a' + 10;
}

bytes of_hex(const char *hex, size_t digits){
  bytes made = { __real_malloc(digits / 2 + 1), digits / 2 };
  for(size_t i = 0; i < made.n; i++) made.at[i] = (uint8_t)(digit(hex[2 * i]) << 4 | digit(hex[2 * i + 1]));
  return made;
}

int is_hex(bytes is, const char *hex){
  bytes wanted = of_hex(hex, strlen(hex));
  int same = is.n == wanted.n && memcmp(is.at, wanted.at, is.n) == 0;
  free(wanted.at);
  return same;
}

bytes record(const char *letters, ...){
  uint8_t fields[512];
  size_t n = 0;
  va_list list;
  va_start(list, letters);
  for(; *letters; letters++){
    if( *letters == 'i' ){
      n += changecap_put_int(fields + n, va_arg(list, int));
    }else if( *letters == 't' ){
      const char *text = va_arg(list, const char *);
      n += changecap_put_text(fields + n, text, strlen(text));
    }else if( *letters == 'b' ){
      const char *hex = va_arg(list, const char *);
      bytes blob = of_hex(hex, strlen(hex));
      n += changecap_put_blob(fields + n, blob.at, blob.n);
      free(blob.at);
    }else{
      n += *letters == 'n' ? changecap_put_null(fields + n) : changecap_put_undefined(fields + n);
    }
  }
  va_end(list);
  return copy_of(fields, n);
}

/* ---- Words ---- */

/* Each status has words of its own, and any other number has the same. */
static void words_of_statuses(void){
  const char *other = changecap_errstr(99);
  for(uint32_t status = 0; status <= CHANGECAP_DONE; status++){
    const char *words = changecap_errstr(status);
    int is_status = status <= CHANGECAP_CLIENTS || status >= CHANGECAP_ROW;
    CHECK(is_status ? strcmp(words, other) != 0 : !strcmp(words, other));
    for(uint32_t earlier = 0; is_status && earlier < status; earlier++) CHECK(changecap_errstr(earlier) != words);
  }
  CHECK(!strcmp(changecap_version(), CHANGECAP_VERSION));
}

/* ---- The calls on whole blobs ---- */

typedef uint32_t (*convert)(const void *, size_t, uint32_t, void *, size_t, size_t *, changecap_fault *);

/* What a call makes of a blob: first it reports the length, then it gets a buffer that is just as long. */
static uint32_t made_by(convert call, bytes blob, uint32_t key_flags, bytes *made, changecap_fault *fault){
  size_t len = 12345;
  uint8_t none = 0xaa;
  uint32_t status = call(blob.at, blob.n, key_flags, &none, 0, &len, fault);
  *made = copy_of(&none, 0);
  CHECK(none == 0xaa);
  if( status == CHANGECAP_OK ) CHECK(len == 0);
  if( status != CHANGECAP_ROOM ) return status;
  free(made->at);
  made->n = len;
  made->at = __real_malloc(len);
  len = 0;
  status = call(blob.at, blob.n, key_flags, made->at, made->n, &len, fault);
  CHECK(status == CHANGECAP_OK && len == made->n);
  return status;
}

static void worked_values(void){
  bytes blob = of_hex(INSERT, strlen(INSERT)), made;
  changecap_fault fault = { 77, 77 };
  CHECK(changecap_check(blob.at, blob.n, &fault) == CHANGECAP_OK && fault.kind == 77 && fault.at == 77);
  CHECK(made_by(changecap_invert, blob, CHANGECAP_KEYS_ONES, &made, &fault) == CHANGECAP_OK && is_hex(made, DELETE));
  free(made.at);
  CHECK(made_by(changecap_patchset, blob, CHANGECAP_KEYS_ONES, &made, &fault) == CHANGECAP_OK);
  CHECK(is_hex(made, PATCH));
  CHECK(fault.kind == 77 && fault.at == 77);
  blob.at[0] = 0x50;
  size_t len = 99;
  CHECK(changecap_invert(blob.at, blob.n, 0, made.at, made.n, &len, &fault) == CHANGECAP_PATCHSET && len == 99);
  CHECK(changecap_patchset(blob.at, blob.n, 0, made.at, made.n, &len, &fault) == CHANGECAP_PATCHSET && len == 99);
  CHECK(changecap_invert(blob.at, blob.n, 2, made.at, made.n, &len, &fault) == CHANGECAP_MISUSE);
  CHECK(changecap_patchset(blob.at, blob.n, 9, made.at, made.n, &len, &fault) == CHANGECAP_MISUSE);
  CHECK(is_hex(made, PATCH));
  free(made.at);
  free(blob.at);
  blob = of_hex(TWO_KEYS, strlen(TWO_KEYS));
  CHECK(made_by(changecap_invert, blob, CHANGECAP_KEYS_PLACES, &made, &fault) == CHANGECAP_OK);
  CHECK(is_hex(made, "540300010274000900030178010000000000000002010000000000000001"));
  free(made.at);
  CHECK(made_by(changecap_patchset, blob, CHANGECAP_KEYS_PLACES, &made, &fault) == CHANGECAP_OK);
  CHECK(is_hex(made, "500300010274001200030178010000000000000002010000000000000001"));
  free(made.at);
  free(blob.at);
  len = 99;
  CHECK(changecap_check(changecap_bytes(NULL), 0, &fault) == CHANGECAP_OK);
  uint8_t none;
  CHECK(changecap_invert(changecap_bytes(NULL), 0, 1, &none, 0, &len, &fault) == CHANGECAP_OK && len == 0);
}

/* Both blobs as one, in the way of made_by. */
static uint32_t concatenated(bytes first, bytes second, uint32_t key_flags, bytes *made, changecap_fault *fault,
                             size_t *blob){
  size_t len = 12345;
  uint8_t none = 0xaa;
  uint32_t status;
  status = changecap_concat(first.at, first.n, second.at, second.n, key_flags, &none, 0, &len, fault, blob);
  *made = copy_of(&none, 0);
  CHECK(none == 0xaa);
  if( status == CHANGECAP_OK ) CHECK(len == 0);
  if( status != CHANGECAP_ROOM ) return status;
  free(made->at);
  made->n = len;
  made->at = __real_malloc(len);
  len = 0;
  status = changecap_concat(first.at, first.n, second.at, second.n, key_flags, made->at, made->n, &len, fault, blob);
  CHECK(status == CHANGECAP_OK && len == made->n);
  return status;
}

/* The text of a blob, in the way of made_by. */
static uint32_t json_of(bytes blob, bytes *made, changecap_fault *fault){
  size_t len = 12345;
  uint8_t none = 0xaa;
  uint32_t status = changecap_json(blob.at, blob.n, &none, 0, &len, fault);
  *made = copy_of(&none, 0);
  CHECK(none == 0xaa && status != CHANGECAP_OK);
  if( status != CHANGECAP_ROOM ) return status;
  free(made->at);
  made->n = len;
  made->at = __real_malloc(len);
  len = 0;
  status = changecap_json(blob.at, blob.n, made->at, made->n, &len, fault);
  CHECK(status == CHANGECAP_OK && len == made->n);
  return status;
}

/* Both blobs, by their digits, have this concatenation. */
static void concat_is(const char *first, const char *second, uint32_t key_flags, const char *wanted){
  bytes one = of_hex(first, strlen(first)), two = of_hex(second, strlen(second)), made;
  changecap_fault fault = { 77, 77 };
  size_t blob = 77;
  CHECK(concatenated(one, two, key_flags, &made, &fault, &blob) == CHANGECAP_OK && is_hex(made, wanted));
  CHECK(fault.kind == 77 && fault.at == 77 && blob == 77);
  free(one.at);
  free(two.at);
  free(made.at);
}

/* They have none, for this reason, by the blob of this number. Nothing else is written. */
static void concat_is_refused(const char *first, const char *second, uint32_t wanted, size_t by, changecap_fault of){
  bytes one = of_hex(first, strlen(first)), two = of_hex(second, strlen(second));
  changecap_fault fault = { 77, 77 };
  size_t blob = 77, len = 99;
  uint8_t out[64] = { 0xaa };
  CHECK(changecap_concat(one.at, one.n, two.at, two.n, 0, out, sizeof out, &len, &fault, &blob) == wanted);
  CHECK(blob == by && fault.kind == of.kind && fault.at == of.at && len == 99 && out[0] == 0xaa);
  free(one.at);
  free(two.at);
}

static void worked_concatenations(void){
  const char *patched = "5002010074001700010000000000000001030179";
  changecap_fault none = { 77, 77 };
  concat_is(INSERT, UPDATE, CHANGECAP_KEYS_ONES, "5402010074001200010000000000000001030179");
  concat_is(UPDATE, "5402010074000900010000000000000001030179", CHANGECAP_KEYS_PLACES, DELETE);
  concat_is(INSERT, DELETE, CHANGECAP_KEYS_PLACES, "");
  concat_is(INSERT, OTHER_TABLE, CHANGECAP_KEYS_PLACES, INSERT OTHER_TABLE);
  concat_is(PATCH, patched, CHANGECAP_KEYS_ONES, "5002010074001200010000000000000001030179");
  concat_is("", TWO_KEYS, CHANGECAP_KEYS_ONES, TWO_KEYS);
  concat_is(TWO_KEYS, "", CHANGECAP_KEYS_PLACES, "540300010274001200030178010000000000000002010000000000000001");
  concat_is("", "", CHANGECAP_KEYS_ONES, "");
  concat_is("", PATCH, CHANGECAP_KEYS_ONES, PATCH);
  concat_is_refused(INSERT, PATCH, CHANGECAP_KIND, 1, none);
  concat_is_refused(PATCH, INSERT, CHANGECAP_KIND, 1, none);
  concat_is_refused(INSERT, TWO_KEYS, CHANGECAP_COLUMNS, 1, none);
  concat_is_refused("5480", INSERT, CHANGECAP_MALFORMED, 0, (changecap_fault){ CHANGECAP_BAD_VARINT, 1 });
  concat_is_refused(INSERT, "5480", CHANGECAP_MALFORMED, 1, (changecap_fault){ CHANGECAP_BAD_VARINT, 1 });
  bytes blob = of_hex(INSERT, strlen(INSERT));
  changecap_fault fault = { 77, 77 };
  size_t len = 99, by = 77;
  uint8_t out[64];
  CHECK(changecap_concat(blob.at, blob.n, blob.at, blob.n, 2, out, sizeof out, &len, &fault, &by) == CHANGECAP_MISUSE);
  free(blob.at);
}

static void json_is(const char *hex, const char *wanted){
  bytes blob = of_hex(hex, strlen(hex)), made;
  changecap_fault fault = { 77, 77 };
  CHECK(json_of(blob, &made, &fault) == CHANGECAP_OK && fault.kind == 77 && fault.at == 77);
  CHECK(made.n == strlen(wanted) && !memcmp(made.at, wanted, made.n));
  free(blob.at);
  free(made.at);
}

static void worked_json(void){
  json_is("", "[]\n");
  json_is(INSERT,
          "[{\"table\":\"t\",\"op\":\"insert\",\"indirect\":false,\"key\":[\"c0\"],"
          "\"new\":{\"c0\":1,\"c1\":\"x\"}}]\n");
  json_is("540201007400170101000000000000000103017800030179",
          "[{\"table\":\"t\",\"op\":\"update\",\"indirect\":true,\"key\":[\"c0\"],"
          "\"old\":{\"c0\":1,\"c1\":\"x\"},\"new\":{\"c1\":\"y\"}}]\n");
  json_is("50030001017400120005010000000000000002040200ff",
          "[{\"table\":\"t\",\"op\":\"insert\",\"indirect\":false,\"key\":[\"c1\",\"c2\"],"
          "\"new\":{\"c0\":null,\"c1\":2,\"c2\":{\"blob\":\"00ff\"}}}]\n");
  bytes blob = of_hex("5480", 4), made;
  changecap_fault fault = { 77, 77 };
  CHECK(json_of(blob, &made, &fault) == CHANGECAP_MALFORMED && fault.kind == CHANGECAP_BAD_VARINT && fault.at == 1);
  free(blob.at);
  free(made.at);
}

/* Each request for memory is refused in turn. The call reports it and changes nothing, or did without that request. */
static void refused_memory(bytes blob, convert call){
  bytes out = copy_of(blob.at, blob.n), before = copy_of(blob.at, blob.n), made;
  changecap_fault none = { 0, 0 };
  CHECK(made_by(call, blob, 1, &made, &none) == CHANGECAP_OK);
  for(long at = 0, granted = 0; !granted; at++){
    size_t len = 99;
    changecap_fault fault = { 77, 77 };
    refuse_behind(at);
    uint32_t status = call(blob.at, blob.n, 1, out.at, out.n, &len, &fault);
    granted = none_refused();
    CHECK(fault.kind == 77 && fault.at == 77);
    if( status == CHANGECAP_NOMEM ){
      CHECK(!granted && len == 99 && !memcmp(out.at, before.at, out.n));
    }else{
      CHECK(status == CHANGECAP_OK && len == made.n && !memcmp(out.at, made.at, made.n));
      if( before.n ) memcpy(out.at, before.at, before.n);
    }
  }
  free(out.at);
  free(before.at);
  free(made.at);
}

/* The same of the concatenation of two blobs that have one. */
static void refused_concat(bytes first, bytes second){
  changecap_fault fault = { 77, 77 };
  size_t blob = 77;
  bytes made;
  if( concatenated(first, second, 1, &made, &fault, &blob) != CHANGECAP_OK ){
    free(made.at);
    return;
  }
  bytes out = { __real_malloc(made.n + 1), made.n };
  for(long at = 0, granted = 0; !granted; at++){
    size_t len = 99;
    memset(out.at, 0xaa, out.n + 1);
    refuse_behind(at);
    uint32_t status = changecap_concat(first.at, first.n, second.at, second.n, 1, out.at, out.n, &len, &fault, &blob);
    granted = none_refused();
    CHECK(fault.kind == 77 && fault.at == 77 && blob == 77 && out.at[out.n] == 0xaa);
    if( status == CHANGECAP_NOMEM ) CHECK(!granted && len == 99 && out.at[0] == 0xaa);
    else CHECK(status == CHANGECAP_OK && len == made.n && !memcmp(out.at, made.at, made.n));
  }
  free(out.at);
  free(made.at);
}

static void refused_json(bytes blob){
  changecap_fault fault = { 77, 77 };
  bytes made;
  CHECK(json_of(blob, &made, &fault) == CHANGECAP_OK);
  bytes out = { __real_malloc(made.n), made.n };
  for(long at = 0, granted = 0; !granted; at++){
    size_t len = 99;
    memset(out.at, 0xaa, out.n);
    refuse_behind(at);
    uint32_t status = changecap_json(blob.at, blob.n, out.at, out.n, &len, &fault);
    granted = none_refused();
    CHECK(fault.kind == 77 && fault.at == 77);
    if( status == CHANGECAP_NOMEM ) CHECK(!granted && len == 99 && out.at[0] == 0xaa);
    else CHECK(status == CHANGECAP_OK && len == made.n && !memcmp(out.at, made.at, made.n));
  }
  free(out.at);
  free(made.at);
}

static void refused_check(bytes blob){
  for(long at = 0, granted = 0; !granted; at++){
    changecap_fault fault = { 77, 77 };
    refuse_behind(at);
    uint32_t status = changecap_check(blob.at, blob.n, &fault);
    granted = none_refused();
    CHECK(status == CHANGECAP_OK || (status == CHANGECAP_NOMEM && !granted));
    CHECK(fault.kind == 77 && fault.at == 77);
  }
}

/* ---- The calls on an iterator ---- */

typedef uint32_t (*bytes_of)(changecap_iter *, size_t, void *, size_t, size_t *);

/* The bytes of a field, in a buffer that is just as long. A shorter one is left as it was. */
static bytes field_bytes(changecap_iter *it, size_t column, size_t n, bytes_of call){
  bytes made = { __real_malloc(n ? n : 1), n };
  size_t len = 99;
  if( n ){
    made.at[0] = 0xaa;
    CHECK(call(it, column, made.at, n - 1, &len) == CHANGECAP_ROOM && len == n && made.at[0] == 0xaa);
  }
  CHECK(call(it, column, made.at, n, &len) == CHANGECAP_OK && len == n);
  return made;
}

static void read_field(changecap_iter *it, size_t column, changecap_value value, bytes_of call){
  CHECK(value.type <= 5 && value.type != 2);
  CHECK(value.type == CHANGECAP_INTEGER || value.number == 0);
  CHECK(value.type == CHANGECAP_TEXT || value.type == CHANGECAP_BLOB || value.len == 0);
  free(field_bytes(it, column, value.len, call).at);
}

/* Reads all of a change. Which fields are defined is as the operation has it. */
void read_change(changecap_iter *it){
  changecap_change change;
  CHECK(changecap_iter_op(it, &change) == CHANGECAP_OK);
  uint8_t name[255];
  size_t len = 99, keys = 0;
  CHECK(changecap_iter_table(it, name, 0, &len) == CHANGECAP_ROOM && len >= 1 && len <= 255);
  CHECK(changecap_iter_table(it, name, sizeof name, &len) == CHANGECAP_OK);
  for(size_t column = 0; column < change.columns; column++){
    changecap_value old, new;
    uint32_t is_key = 9;
    CHECK(changecap_iter_key(it, column, &is_key) == CHANGECAP_OK && is_key <= 1);
    keys += is_key;
    CHECK(changecap_iter_old(it, column, &old) == CHANGECAP_OK);
    CHECK(changecap_iter_new(it, column, &new) == CHANGECAP_OK);
    read_field(it, column, old, changecap_iter_old_bytes);
    read_field(it, column, new, changecap_iter_new_bytes);
    int has_old = change.op == CHANGECAP_DELETE ? !change.patchset || is_key : change.op == CHANGECAP_UPDATE && is_key;
    if( has_old ) CHECK(old.type != CHANGECAP_UNDEFINED);
    if( change.op == CHANGECAP_INSERT ) CHECK(old.type == CHANGECAP_UNDEFINED && new.type != CHANGECAP_UNDEFINED);
    if( change.op == CHANGECAP_DELETE ) CHECK(new.type == CHANGECAP_UNDEFINED);
    if( change.op == CHANGECAP_UPDATE && is_key ) CHECK(new.type == CHANGECAP_UNDEFINED);
  }
  CHECK(keys > 0);
  records_agree(it);
  changecap_value value = { 77, 77, 77 };
  uint32_t is_key = 77;
  CHECK(changecap_iter_old(it, change.columns, &value) == CHANGECAP_MISUSE && value.type == 77);
  CHECK(changecap_iter_new(it, change.columns, &value) == CHANGECAP_MISUSE && value.type == 77);
  CHECK(changecap_iter_key(it, change.columns, &is_key) == CHANGECAP_MISUSE && is_key == 77);
  CHECK(changecap_iter_old_bytes(it, change.columns, name, sizeof name, &len) == CHANGECAP_MISUSE);
  CHECK(changecap_iter_new_bytes(it, change.columns, name, sizeof name, &len) == CHANGECAP_MISUSE);
}

/* Where there is no change, nothing is written. */
static void reads_nothing(changecap_iter *it){
  changecap_change change = { 77, 77, 77, 77 };
  changecap_value value = { 77, 77, 77 };
  uint32_t is_key = 77;
  uint8_t none = 0xaa;
  size_t len;
  CHECK(changecap_iter_op(it, &change) == CHANGECAP_MISUSE && change.op == 77);
  CHECK(changecap_iter_table(it, &none, 1, &len) == CHANGECAP_MISUSE);
  CHECK(changecap_iter_key(it, 0, &is_key) == CHANGECAP_MISUSE && is_key == 77);
  CHECK(changecap_iter_old(it, 0, &value) == CHANGECAP_MISUSE);
  CHECK(changecap_iter_new(it, 0, &value) == CHANGECAP_MISUSE && value.type == 77);
  CHECK(changecap_iter_old_bytes(it, 0, &none, 1, &len) == CHANGECAP_MISUSE);
  CHECK(changecap_iter_new_bytes(it, 0, &none, 1, &len) == CHANGECAP_MISUSE);
  CHECK(changecap_iter_old_record(it, &none, 1, &len) == CHANGECAP_MISUSE);
  CHECK(changecap_iter_new_record(it, &none, 1, &len) == CHANGECAP_MISUSE && none == 0xaa);
}

/* How many changes there are, each read whole; or none where the blob has a fault. */
static size_t iterated(bytes blob, uint32_t status){
  changecap_iter it = CHANGECAP_CLOSED;
  changecap_fault fault;
  size_t changes = 0;
  CHECK(changecap_iter_open(blob.at, blob.n, &it, &fault) == status);
  if( status != CHANGECAP_OK ){
    CHECK(it.at == NULL);
    return 0;
  }
  CHECK(it.at != NULL);
  reads_nothing(&it);
  while( changecap_iter_next(&it) == CHANGECAP_ROW ){
    read_change(&it);
    changes++;
  }
  reads_nothing(&it);
  CHECK(changecap_iter_next(&it) == CHANGECAP_DONE);
  changecap_iter_close(&it);
  CHECK(it.at == NULL);
  return changes;
}

static void worked_iterator(void){
  const char *hex = "540201007400540201007500"
                    "170101000000000000000703012d0003022b2b"
                    "540301000162001200040200ff050301610900040100050100000000000000ff";
  bytes blob = of_hex(hex, strlen(hex));
  changecap_iter it = CHANGECAP_CLOSED;
  changecap_fault fault;
  changecap_change change;
  changecap_value value;
  uint8_t out[8];
  size_t len;
  CHECK(changecap_iter_open(blob.at, blob.n, &it, &fault) == CHANGECAP_OK);
  memset(blob.at, 0, blob.n);
  free(blob.at);
  CHECK(changecap_iter_next(&it) == CHANGECAP_ROW);
  CHECK(changecap_iter_op(&it, &change) == CHANGECAP_OK);
  CHECK(change.op == CHANGECAP_UPDATE && change.indirect == 1 && change.patchset == 0 && change.columns == 2);
  CHECK(changecap_iter_table(&it, out, 8, &len) == CHANGECAP_OK && len == 1 && out[0] == 'u');
  CHECK(changecap_iter_old(&it, 0, &value) == CHANGECAP_OK && value.type == CHANGECAP_INTEGER && value.number == 7);
  CHECK(changecap_iter_old(&it, 1, &value) == CHANGECAP_OK && value.type == CHANGECAP_TEXT && value.len == 1);
  CHECK(changecap_iter_old_bytes(&it, 1, out, 8, &len) == CHANGECAP_OK && len == 1 && out[0] == '-');
  CHECK(changecap_iter_new(&it, 0, &value) == CHANGECAP_OK && value.type == CHANGECAP_UNDEFINED);
  CHECK(changecap_iter_new_bytes(&it, 1, out, 8, &len) == CHANGECAP_OK && len == 2 && !memcmp(out, "++", 2));
  CHECK(changecap_iter_next(&it) == CHANGECAP_ROW);
  CHECK(changecap_iter_op(&it, &change) == CHANGECAP_OK && change.op == CHANGECAP_INSERT && change.columns == 3);
  CHECK(changecap_iter_new(&it, 0, &value) == CHANGECAP_OK && value.type == CHANGECAP_BLOB && value.len == 2);
  CHECK(changecap_iter_new_bytes(&it, 0, out, 8, &len) == CHANGECAP_OK && len == 2 && out[0] == 0 && out[1] == 0xff);
  CHECK(changecap_iter_new(&it, 1, &value) == CHANGECAP_OK && value.type == CHANGECAP_NULL);
  CHECK(changecap_iter_next(&it) == CHANGECAP_ROW);
  CHECK(changecap_iter_op(&it, &change) == CHANGECAP_OK && change.op == CHANGECAP_DELETE && change.indirect == 0);
  CHECK(changecap_iter_old(&it, 2, &value) == CHANGECAP_OK && value.number == 255);
  CHECK(changecap_iter_next(&it) == CHANGECAP_DONE);
  changecap_iter_close(&it);
}

static void refused_iterator(bytes blob){
  for(long at = 0, granted = 0; !granted; at++){
    changecap_iter it = CHANGECAP_CLOSED;
    changecap_fault fault;
    refuse_behind(at);
    uint32_t status = changecap_iter_open(blob.at, blob.n, &it, &fault);
    granted = none_refused();
    CHECK(status == CHANGECAP_OK ? it.at != NULL : status == CHANGECAP_NOMEM && it.at == NULL && !granted);
    if( status == CHANGECAP_OK ) changecap_iter_close(&it);
  }
}

/* ---- The calls on a decoder ---- */

/* The status of the pieces of a blob, of this length each, in buffers that are just as long. Their fault is that of the
 * whole blob, reported with a piece or at the end. */
static uint32_t decoded(bytes blob, size_t len, changecap_fault *fault, size_t *changes){
  changecap_decoder decoder = CHANGECAP_CLOSED;
  changecap_iter it = CHANGECAP_CLOSED;
  uint32_t status = changecap_decoder_open(&decoder);
  CHECK(status == CHANGECAP_OK && decoder.at != NULL);
  *changes = 0;
  for(size_t at = 0; at < blob.n && status == CHANGECAP_OK; at += len){
    bytes piece = copy_of(blob.at + at, blob.n - at < len ? blob.n - at : len);
    status = changecap_decoder_feed(&decoder, piece.at, piece.n, fault);
    free(piece.at);
  }
  if( status == CHANGECAP_MALFORMED ){
    changecap_fault again = { 77, 77 };
    CHECK(changecap_decoder_feed(&decoder, blob.at, blob.n, &again) == status && again.kind == fault->kind);
    CHECK(again.at == fault->at && fault->kind != CHANGECAP_TRUNCATED);
    changecap_decoder_close(&decoder);
    CHECK(decoder.at == NULL);
    return status;
  }
  status = changecap_decoder_finish(&decoder, &it, fault);
  CHECK(decoder.at == NULL && (it.at != NULL) == (status == CHANGECAP_OK));
  if( status != CHANGECAP_OK ) return status;
  for(; changecap_iter_next(&it) == CHANGECAP_ROW; ++*changes) read_change(&it);
  changecap_iter_close(&it);
  return status;
}

static void worked_pieces(void){
  bytes blob = of_hex(INSERT, strlen(INSERT));
  changecap_fault fault = { 77, 77 };
  size_t changes;
  for(size_t len = 1; len <= blob.n; len++)
    CHECK(decoded(blob, len, &fault, &changes) == CHANGECAP_OK && changes == 1 && fault.kind == 77);
  bytes front = { blob.at, blob.n - 1 }, none = { blob.at, 0 };
  CHECK(decoded(front, 3, &fault, &changes) == CHANGECAP_MALFORMED && fault.kind == 1 && fault.at == front.n);
  CHECK(decoded(none, 3, &fault, &changes) == CHANGECAP_OK && changes == 0);
  blob.at[6] = 7;
  CHECK(decoded(blob, 2, &fault, &changes) == CHANGECAP_MALFORMED && fault.kind == CHANGECAP_BAD_OP && fault.at == 6);
  free(blob.at);
}

/* NULL stands for no bytes and for no room, and a handle that is closed is closed again. */
static void no_bytes_are_null(void){
  changecap_fault fault = { 77, 77 };
  changecap_iter it = CHANGECAP_CLOSED;
  changecap_decoder decoder = CHANGECAP_CLOSED;
  size_t len = 99, refused = 99;
  bytes blob = of_hex(INSERT, strlen(INSERT));
  CHECK(changecap_check(NULL, 0, &fault) == CHANGECAP_OK);
  CHECK(changecap_invert(NULL, 0, 1, NULL, 0, &len, &fault) == CHANGECAP_OK && len == 0);
  CHECK(changecap_invert(blob.at, blob.n, 1, NULL, 0, &len, &fault) == CHANGECAP_ROOM && len == blob.n);
  CHECK(changecap_patchset(NULL, 0, 1, NULL, 0, &len, &fault) == CHANGECAP_OK && len == 0);
  CHECK(changecap_concat(NULL, 0, blob.at, blob.n, 1, NULL, 0, &len, &fault, &refused) == CHANGECAP_ROOM);
  CHECK(len == blob.n);
  CHECK(changecap_concat(NULL, 0, NULL, 0, 1, NULL, 0, &len, &fault, &refused) == CHANGECAP_OK && len == 0);
  CHECK(changecap_json(NULL, 0, NULL, 0, &len, &fault) == CHANGECAP_ROOM && len == strlen("[]\n"));
  CHECK(fault.kind == 77 && fault.at == 77 && refused == 99);
  changecap_iter_close(&it);
  CHECK(changecap_iter_open(NULL, 0, &it, &fault) == CHANGECAP_OK && changecap_iter_next(&it) == CHANGECAP_DONE);
  CHECK(changecap_iter_table(&it, NULL, 0, &len) == CHANGECAP_MISUSE && len == strlen("[]\n"));
  changecap_iter_close(&it);
  changecap_iter_close(&it);
  CHECK(it.at == NULL);
  CHECK(changecap_iter_open(blob.at, blob.n, &it, &fault) == CHANGECAP_OK && changecap_iter_next(&it) == CHANGECAP_ROW);
  len = 99;
  CHECK(changecap_iter_table(&it, NULL, 0, &len) == CHANGECAP_ROOM && len == 1);
  CHECK(changecap_iter_old_bytes(&it, 1, NULL, 0, &len) == CHANGECAP_OK && len == 0);
  CHECK(changecap_iter_new_bytes(&it, 1, NULL, 0, &len) == CHANGECAP_ROOM && len == 1);
  changecap_iter_close(&it);
  changecap_decoder_close(&decoder);
  CHECK(changecap_decoder_open(&decoder) == CHANGECAP_OK);
  CHECK(changecap_decoder_feed(&decoder, NULL, 0, &fault) == CHANGECAP_OK);
  CHECK(changecap_decoder_finish(&decoder, &it, &fault) == CHANGECAP_OK);
  changecap_decoder_close(&decoder);
  CHECK(decoder.at == NULL && changecap_iter_next(&it) == CHANGECAP_DONE);
  changecap_iter_close(&it);
  free(blob.at);
}

/* Each request for memory is refused in turn. A piece that was not taken is given again. */
static void refused_pieces(bytes blob){
  for(long at = 0, granted = 0; !granted; at++){
    changecap_decoder decoder = CHANGECAP_CLOSED;
    changecap_iter it = CHANGECAP_CLOSED;
    changecap_fault fault = { 77, 77 };
    uint32_t status;
    refuse_behind(at);
    granted = 1;
    AGAIN(changecap_decoder_open(&decoder));
    for(size_t from = 0; from < blob.n; from += 9){
      size_t n = blob.n - from < 9 ? blob.n - from : 9;
      AGAIN(changecap_decoder_feed(&decoder, blob.at + from, n, &fault));
      CHECK(status == CHANGECAP_OK);
    }
    status = changecap_decoder_finish(&decoder, &it, &fault);
    granted = none_refused() && granted;
    CHECK(decoder.at == NULL && fault.kind == 77);
    CHECK(status == CHANGECAP_OK ? it.at != NULL : status == CHANGECAP_NOMEM && it.at == NULL && !granted);
    if( status == CHANGECAP_OK ) changecap_iter_close(&it);
  }
}

/* Pieces are read as the whole blob. */
static void pieces_agree(bytes blob, uint32_t wanted, changecap_fault fault, size_t changes){
  changecap_fault other = { 0, 0 };
  size_t found;
  CHECK(decoded(blob, blob.n % 7 + 1, &other, &found) == wanted && found == changes);
  if( wanted == CHANGECAP_MALFORMED ) CHECK(other.kind == fault.kind && other.at == fault.at);
}

/* What holds of a blob alone, of this status and fault, and of its text. A concatenation does not change once more. */
static void concat_and_json_agree(bytes blob, uint32_t status, changecap_fault fault){
  bytes nothing = { (uint8_t *)"", 0 }, once, twice, text;
  changecap_fault other = { 77, 77 };
  size_t by = 77;
  uint32_t joined = concatenated(blob, nothing, 0, &once, &other, &by);
  if( status == CHANGECAP_MALFORMED ){
    CHECK(joined == status && other.kind == fault.kind && other.at == fault.at && by == 0);
  }else if( joined == CHANGECAP_OK ){
    CHECK(concatenated(nothing, once, 0, &twice, &other, &by) == CHANGECAP_OK);
    CHECK(once.n == twice.n && !memcmp(once.at, twice.at, once.n));
    free(twice.at);
  }else{
    CHECK(joined == CHANGECAP_COLUMNS && by == 0);
  }
  free(once.at);
  other = (changecap_fault){ 77, 77 };
  CHECK(json_of(blob, &text, &other) == status);
  if( status == CHANGECAP_MALFORMED ) CHECK(other.kind == fault.kind && other.at == fault.at);
  else CHECK(text.n >= 3 && text.at[0] == '[' && text.at[text.n - 1] == '\n');
  free(text.at);
}

/* What holds of the calls on any bytes. */
static void calls_agree(bytes blob){
  changecap_fault fault = { 0, 0 }, other = { 0, 0 };
  uint32_t status = changecap_check(blob.at, blob.n, &fault);
  bytes once, twice, thrice, patchset;
  uint32_t inverted = made_by(changecap_invert, blob, 0, &once, &other);
  uint32_t patched = made_by(changecap_patchset, blob, 0, &patchset, &other);
  CHECK(inverted == patched);
  concat_and_json_agree(blob, status, fault);
  application_agrees(blob, status, fault);
  size_t changes = iterated(blob, status);
  pieces_agree(blob, status, fault, changes);
  if( status == CHANGECAP_MALFORMED ){
    CHECK(inverted == status && fault.kind == other.kind && fault.at == other.at);
    CHECK(fault.kind >= 1 && fault.kind <= 10 && fault.at <= blob.n);
  }else{
    CHECK(status == CHANGECAP_OK);
    CHECK(inverted == (blob.n && blob.at[0] == 0x50 ? CHANGECAP_PATCHSET : CHANGECAP_OK));
  }
  if( inverted == CHANGECAP_OK ){
    CHECK(once.n <= blob.n && patchset.n <= once.n);
    CHECK(iterated(once, CHANGECAP_OK) == changes && iterated(patchset, CHANGECAP_OK) == changes);
    CHECK(changecap_check(patchset.at, patchset.n, &fault) == CHANGECAP_OK);
    CHECK(made_by(changecap_invert, once, 0, &twice, &fault) == CHANGECAP_OK);
    CHECK(made_by(changecap_invert, twice, 0, &thrice, &fault) == CHANGECAP_OK);
    CHECK(once.n == thrice.n && !memcmp(once.at, thrice.at, once.n));
    free(twice.at);
    free(thrice.at);
  }
  free(once.at);
  free(patchset.at);
}

/* ---- Blobs of a file, and damaged ones ---- */

typedef struct known {
  bytes blob;
  changecap_fault fault;
} known;

static known *all;
static size_t number;

static void read_known(const char *path){
  FILE *file = fopen(path, "r");
  char *line = NULL;
  size_t room = 0;
  ssize_t n;
  while( file && (n = getline(&line, &room, file)) > 0 ){
    size_t digits = strspn(line, "0123456789abcdefABCDEF");
    unsigned kind;
    size_t at;
    if( sscanf(line + digits, " %u %zu", &kind, &at) != 2 ) continue;
    all = __real_realloc(all, (number + 1) * sizeof *all);
    all[number++] = (known){ of_hex(line, digits), { kind, at } };
  }
  free(line);
  CHECK(file != NULL && number > 0);
  if( file ) fclose(file);
}

static void known_faults(void){
  for(size_t i = 0; i < number; i++){
    changecap_fault fault = { 0, 0 };
    uint32_t status = changecap_check(all[i].blob.at, all[i].blob.n, &fault);
    CHECK(status == (all[i].fault.kind ? CHANGECAP_MALFORMED : CHANGECAP_OK));
    CHECK(fault.kind == all[i].fault.kind && fault.at == all[i].fault.at);
    calls_agree(all[i].blob);
  }
}

static uint64_t state = 88172645463325252u;

static uint64_t random_below(uint64_t limit){
  state ^= state << 13;
  state ^= state >> 7;
  state ^= state << 17;
  return limit ? state % limit : 0;
}

static bytes damaged(bytes blob){
  bytes made = { __real_malloc(blob.n + 16), blob.n };
  if( blob.n ) memcpy(made.at, blob.at, blob.n);
  for(uint64_t times = 1 + random_below(3); times; times--){
    size_t at = random_below(made.n);
    switch( random_below(4) ){
      case 0: if( made.n ) made.at[at] = (uint8_t)random_below(256); break;
      case 1: if( made.n ) made.at[at] ^= (uint8_t)(1u << random_below(8)); break;
      case 2: made.n = at; break;
      default:
        memmove(made.at + at + 1, made.at + at, made.n - at);
        made.at[at] = (uint8_t)(random_below(2) ? random_below(6) : random_below(256));
        made.n++;
    }
  }
  bytes exact = copy_of(made.at, made.n);
  free(made.at);
  return exact;
}

static void damage(long times){
  for(long i = 0; i < times; i++){
    bytes blob = damaged(all[random_below(number)].blob);
    calls_agree(blob);
    free(blob.at);
  }
}

int main(int words, char **word){
  if( words != 3 ){
    fputs("test_changecap BLOBS COUNT\n", stderr);
    return 2;
  }
  words_of_statuses();
  worked_values();
  worked_concatenations();
  worked_json();
  worked_iterator();
  worked_pieces();
  no_bytes_are_null();
  test_records();
  test_rebases();
  test_server();
  test_batches();
  test_applications();
  test_examples();
  read_known(word[1]);
  known_faults();
  for(size_t i = 0; i < number; i++){
    if( all[i].fault.kind ) continue;
    refused_check(all[i].blob);
    refused_iterator(all[i].blob);
    refused_pieces(all[i].blob);
    refused_json(all[i].blob);
    refused_concat(all[i].blob, all[i].blob);
    if( all[i].blob.n && all[i].blob.at[0] == 0x50 ) continue;
    refused_memory(all[i].blob, changecap_invert);
    refused_memory(all[i].blob, changecap_patchset);
  }
  damage(atol(word[2]));
  for(size_t i = 0; i < number; i++) free(all[i].blob.at);
  free(all);
  printf("%ld passed, %ld failed\n", passed, failed);
  return failed != 0;
}
