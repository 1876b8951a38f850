/* Every refusal of ndr.h but want of memory, once: cc -std=c99 -I../c refusals.c && ./a.out FOLDER */
#define _XOPEN_SOURCE 700
#include <signal.h>
#include <sys/resource.h>

#include "ndr.h"

struct pair { int32_t n; int16_t *v; };
static const ndr_field pair_fields[] = {
  NDR_FIELD(struct pair, n, "integer"), NDR_LIST(struct pair, v, "integer[n]"), NDR_END };
static const ndr_type pair_types[] = { NDR_TYPE("pair", struct pair, pair_fields), NDR_NO_TYPE };

static int wrong;

static void expect(const char *what, ndr_status wanted, ndr_status given) {
  if (wanted != given) {
    printf("%s: wanted %s, given %s\n", what, ndr_text(wanted), ndr_text(given));
    wrong = 1;
  }
}

/* Refused tables: one type `t` of 8 bytes with these fields. */
static const struct { const char *what; ndr_status wanted; const char *type; ndr_field fields[3]; } tables[] = {
  { "a name with a blank", NDR_NAME, "t", { { "a b", "integer", 4, 0 }, NDR_END } },
  { "a reserved type's name", NDR_NAME, "string", { { "a", "integer", 4, 0 }, NDR_END } },
  { "a field twice", NDR_TWICE, "t", { { "a", "integer", 4, 0 }, { "a", "integer", 4, 4 }, NDR_END } },
  { "no word", NDR_TYPE_TEXT, "t", { { "a", "int", 4, 0 }, NDR_END } },
  { "float", NDR_TYPE_TEXT, "t", { { "a", "float", 4, 0 }, NDR_END } },
  { "no elements", NDR_TYPE_TEXT, "t", { { "a", "integer[0]", 4, 0 }, NDR_END } },
  { "a bracket that isn't closed", NDR_TYPE_TEXT, "t", { { "a", "integer[2", 4, 0 }, NDR_END } },
  { "three bytes", NDR_SIZE, "t", { { "a", "integer", 3, 0 }, NDR_END } },
  { "a char of 2 bytes", NDR_SIZE, "t", { { "a", "char", 2, 0 }, NDR_END } },
  { "past the end", NDR_OUTSIDE, "t", { { "a", "integer", 8, 4 }, NDR_END } },
  { "bytes in common", NDR_OVERLAP, "t", { { "a", "integer", 4, 0 }, { "b", "integer", 2, 2 }, NDR_END } },
  { "no count", NDR_COUNT_FIELD, "t", { { "a", "char[n]", 1, 0 }, NDR_END } },
  { "a count that is a char", NDR_COUNT_FIELD, "t", { { "n", "char", 1, 0 }, { "a", "char[n]", 1, 0 }, NDR_END } },
  { "no field", NDR_LIMIT, "t", { NDR_END } } };

static void try_tables(ndr_writer *out) {
  for (size_t k = 0; k < sizeof tables / sizeof *tables; k++) {
    const ndr_type types[] = { { tables[k].type, 8, tables[k].fields }, NDR_NO_TYPE };
    unsigned number;
    expect(tables[k].what, tables[k].wanted, ndr_format(out, types, &number));
  }
}

static void try_records(ndr_writer *out, unsigned number) {
  int16_t v[64] = { 0 };
  struct pair below = { -1, v }, null_list = { 1, NULL }, large = { 64, v }, whole = { 2, v };
  expect("a count below 0", NDR_NEGATIVE, ndr_write(out, number, &below));
  expect("a list that isn't there", NDR_NULL_LIST, ndr_write(out, number, &null_list));
  out->limit = 64;
  expect("above the limit", NDR_TOO_LARGE, ndr_write(out, number, &large));
  expect("no such format", NDR_NO_FORMAT, ndr_write(out, number + 1, &whole));
  expect("a record that fits", NDR_OK, ndr_write(out, number, &whole));
}

/* Fills a file with records of one byte, and with formats. */
static void try_limits(const char *path) {
  static const ndr_field byte_fields[] = { { "b", "char", 1, 0 }, NDR_END };
  static const ndr_type byte_types[] = { { "t", 1, byte_fields }, NDR_NO_TYPE };
  ndr_writer out;
  unsigned number = 0;
  ndr_status status = ndr_open(&out, path);
  for (int k = 0; k < 1024 && status == NDR_OK; k++) status = ndr_format(&out, byte_types, &number);
  for (int k = 0; k < 131072 && status == NDR_OK; k++) status = ndr_write(&out, 0, "b");
  expect("1,024 formats and 131,072 records", NDR_OK, status);
  expect("one format more", NDR_FORMATS, ndr_format(&out, byte_types, &number));
  expect("one record more", NDR_RECORDS, ndr_write(&out, 0, "b"));
  expect("the end", NDR_OK, ndr_end(&out));
}

/* Records of 65,536 bytes until the file is full. */
static void try_long(const char *path) {
  static unsigned char block[65536];
  static const ndr_field block_fields[] = { { "b", "char[65536]", 1, 0 }, NDR_END };
  static const ndr_type block_types[] = { { "t", 65536, block_fields }, NDR_NO_TYPE };
  ndr_writer out;
  unsigned number = 0;
  int written = 0;
  ndr_status status = ndr_open(&out, path);
  if (status == NDR_OK) status = ndr_format(&out, block_types, &number);
  while (status == NDR_OK && written < 1000) {
    status = ndr_write(&out, number, block);
    written += status == NDR_OK;
  }
  expect("above 16 MiB", NDR_TOO_LONG, status);
  expect("255 records before", NDR_OK, written == 255 ? NDR_OK : NDR_TOO_LONG);
  expect("the end", NDR_OK, ndr_end(&out));
}

/* A disk that is full for a while: the file isn't whole, though its end could be written. */
static void try_full(const char *path) {
  static unsigned char block[65536];
  static const ndr_field block_fields[] = { { "b", "char[65536]", 1, 0 }, NDR_END };
  static const ndr_type block_types[] = { { "t", 65536, block_fields }, NDR_NO_TYPE };
  struct rlimit usual, small;
  ndr_writer out;
  unsigned number = 0;
  ndr_status status = ndr_open(&out, path);
  if (status == NDR_OK) status = ndr_format(&out, block_types, &number);
  expect("before the disk is full", NDR_OK, status);
  signal(SIGXFSZ, SIG_IGN);
  getrlimit(RLIMIT_FSIZE, &usual);
  small = usual;
  small.rlim_cur = 8192;
  setrlimit(RLIMIT_FSIZE, &small);
  expect("a disk that is full", NDR_FILE, ndr_write(&out, number, block));
  setrlimit(RLIMIT_FSIZE, &usual);
  expect("a record when it has room again", NDR_OK, ndr_write(&out, number, block));
  expect("the end of a file that isn't whole", NDR_FILE, ndr_end(&out));
}

int main(int words, char **word) {
  char path[4096], other[4096], third[4096];
  ndr_writer out;
  unsigned number = 0;
  const char *folder = words > 1 ? word[1] : ".";
  snprintf(path, sizeof path, "%s/refusals.ndr", folder);
  snprintf(other, sizeof other, "%s/limits.ndr", folder);
  snprintf(third, sizeof third, "%s/long.ndr", folder);
  memset(&out, 0, sizeof out);
  expect("a writer that isn't open", NDR_CLOSED, ndr_write(&out, 0, path));
  expect("a folder that isn't there", NDR_FILE, ndr_open(&out, "/nowhere/at/all.ndr"));
  expect("open", NDR_OK, ndr_open(&out, path));
  try_tables(&out);
  expect("a format", NDR_OK, ndr_format(&out, pair_types, &number));
  try_records(&out, number);
  expect("the end", NDR_OK, ndr_end(&out));
  expect("a second end", NDR_CLOSED, ndr_end(&out));
  try_limits(other);
  try_long(third);
  try_full(path);
  return wrong;
}
