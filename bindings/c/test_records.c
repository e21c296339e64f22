/*
 * Tests of the calls of changecap.h on records: the fields that are put into one, and those of changes.
 */
#include "testing.h"

/* The lengths at which a varint gets a byte more, as the format has them. */
static void put_lengths(void){
  static const struct { size_t n; const char *hex; } front[] = {
    { 0, "0400" }, { 1, "0401" }, { 127, "047f" }, { 128, "048100" }, { 300, "04822c" }, { 16383, "04ff7f" },
    { 16384, "04818000" }, { 2097151, "04ffff7f" }, { 2097152, "0481808000" },
  };
  bytes room = { calloc(1, CHANGECAP_FIELD_MAX(2097152)), 0 }, zeros = { calloc(1, 2097152), 0 };
  for(size_t i = 0; i < sizeof front / sizeof *front; i++){
    size_t digits = strlen(front[i].hex), n = changecap_put_blob(room.at, zeros.at, front[i].n);
    CHECK(n == digits / 2 + front[i].n && n <= CHANGECAP_FIELD_MAX(front[i].n));
    CHECK(is_hex((bytes){ room.at, digits / 2 }, front[i].hex));
  }
  CHECK(changecap_put_int(room.at, -2) == 9 && is_hex((bytes){ room.at, 9 }, "01fffffffffffffffe"));
  CHECK(changecap_put_text(room.at, "ab", 2) == 4 && is_hex((bytes){ room.at, 4 }, "03026162"));
  CHECK(changecap_put_null(room.at) == 1 && is_hex((bytes){ room.at, 1 }, "05"));
  CHECK(changecap_put_undefined(room.at) == 1 && is_hex((bytes){ room.at, 1 }, "00"));
  CHECK(changecap_put_text(room.at, NULL, 0) == 2);
  free(room.at);
  free(zeros.at);
}

/* ---- The records of a change ---- */

typedef uint32_t (*record_of)(changecap_iter *, void *, size_t, size_t *);
typedef uint32_t (*value_of)(changecap_iter *, size_t, changecap_value *);
typedef uint32_t (*bytes_of)(changecap_iter *, size_t, void *, size_t, size_t *);

/* The record in a buffer that is just as long. A shorter one is left as it was. */
static bytes read_record(changecap_iter *it, record_of call){
  size_t len = 99;
  uint8_t none = 0xaa;
  CHECK(call(it, &none, 0, &len) == CHANGECAP_ROOM && none == 0xaa);
  bytes made = { __real_malloc(len), len };
  made.at[0] = 0xaa;
  CHECK(call(it, made.at, len - 1, &len) == CHANGECAP_ROOM && len == made.n && made.at[0] == 0xaa);
  CHECK(call(it, made.at, made.n, &len) == CHANGECAP_OK && len == made.n);
  return made;
}

/* The record of the values that are read one by one. */
static bytes put_record(changecap_iter *it, size_t columns, value_of value, bytes_of content){
  bytes made = { NULL, 0 };
  for(size_t column = 0; column < columns; column++){
    changecap_value found;
    CHECK(value(it, column, &found) == CHANGECAP_OK);
    made.at = __real_realloc(made.at, made.n + CHANGECAP_FIELD_MAX(found.len));
    bytes text = { __real_malloc(found.len + 1), 0 };
    CHECK(content(it, column, text.at, found.len, &text.n) == CHANGECAP_OK);
    uint8_t *to = made.at + made.n;
    if( found.type == CHANGECAP_INTEGER ) made.n += changecap_put_int(to, found.number);
    else if( found.type == CHANGECAP_NULL ) made.n += changecap_put_null(to);
    else if( found.type == CHANGECAP_UNDEFINED ) made.n += changecap_put_undefined(to);
    else made.n += changecap_put_bytes(to, found.type, text.at, text.n);
    free(text.at);
  }
  return made;
}

static void side_agrees(changecap_iter *it, size_t columns, record_of call, value_of value, bytes_of content){
  bytes record = read_record(it, call), wanted = put_record(it, columns, value, content);
  CHECK(record.n == wanted.n && !memcmp(record.at, wanted.at, record.n));
  free(record.at);
  free(wanted.at);
}

void records_agree(changecap_iter *it){
  changecap_change change;
  CHECK(changecap_iter_op(it, &change) == CHANGECAP_OK);
  side_agrees(it, change.columns, changecap_iter_old_record, changecap_iter_old, changecap_iter_old_bytes);
  side_agrees(it, change.columns, changecap_iter_new_record, changecap_iter_new, changecap_iter_new_bytes);
}

static void record_is(changecap_iter *it, record_of call, const char *hex){
  bytes record = read_record(it, call);
  CHECK(is_hex(record, hex));
  free(record.at);
}

/* An insert, an update and a delete, of a changeset and of a patchset. */
static void worked_records(void){
  static const struct { const char *blob, *old[3], *new[3]; } front[] = {
    { INSERT "170001000000000000000103017800030179" "0900010000000000000001030178",
      { "0000", "010000000000000001030178", "010000000000000001030178" },
      { "010000000000000001030178", "00030179", "0000" } },
    { PATCH "1700010000000000000001030179" "0900010000000000000001",
      { "0000", "01000000000000000100", "01000000000000000100" },
      { "010000000000000001030178", "00030179", "0000" } },
  };
  for(size_t i = 0; i < sizeof front / sizeof *front; i++){
    bytes blob = of_hex(front[i].blob, strlen(front[i].blob));
    changecap_iter it = CHANGECAP_CLOSED;
    changecap_fault fault;
    CHECK(changecap_iter_open(blob.at, blob.n, &it, &fault) == CHANGECAP_OK);
    for(size_t at = 0; changecap_iter_next(&it) == CHANGECAP_ROW; at++){
      record_is(&it, changecap_iter_old_record, front[i].old[at]);
      record_is(&it, changecap_iter_new_record, front[i].new[at]);
    }
    size_t len;
    CHECK(changecap_iter_old_record(&it, NULL, 0, &len) == CHANGECAP_MISUSE);
    changecap_iter_close(&it);
    free(blob.at);
  }
}

/* Each request for memory is refused in turn: nothing is written then. */
static void refused_record(record_of call, const char *hex){
  bytes blob = of_hex(UPDATE, strlen(UPDATE));
  changecap_iter it = CHANGECAP_CLOSED;
  changecap_fault fault;
  CHECK(changecap_iter_open(blob.at, blob.n, &it, &fault) == CHANGECAP_OK);
  CHECK(changecap_iter_next(&it) == CHANGECAP_ROW);
  for(long at = 0, granted = 0; !granted; at++){
    uint8_t out[16] = { 0xaa };
    size_t len = 99;
    refuse_behind(at);
    uint32_t status = call(&it, out, sizeof out, &len);
    granted = none_refused();
    if( status == CHANGECAP_NOMEM ) CHECK(!granted && len == 99 && out[0] == 0xaa);
    else CHECK(status == CHANGECAP_OK && is_hex((bytes){ out, len }, hex));
  }
  changecap_iter_close(&it);
  free(blob.at);
}

void test_records(void){
  put_lengths();
  worked_records();
  refused_record(changecap_iter_old_record, "010000000000000001030178");
  refused_record(changecap_iter_new_record, "00030179");
}
