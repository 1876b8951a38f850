/* Record files from C and C++: a table of fields for a struct, then records straight from memory.
 *
 *   struct sensor { uint32_t id; char *name; int32_t n; int16_t *v; };
 *   static const ndr_field sensor_fields[] = {
 *     NDR_FIELD(struct sensor, id, "unsigned integer"), NDR_FIELD(struct sensor, name, "string"),
 *     NDR_FIELD(struct sensor, n, "integer"), NDR_LIST(struct sensor, v, "integer[n]"), NDR_END };
 *   static const ndr_type sensor_types[] = { NDR_TYPE("sensor", struct sensor, sensor_fields),
 *                                            NDR_NO_TYPE };
 *   ndr_writer out; unsigned sensor; ndr_status s;
 *   if ((s = ndr_open(&out, "sensor.ndr")) || (s = ndr_format(&out, sensor_types, &sensor)) ||
 *       (s = ndr_write(&out, sensor, &record)) || (s = ndr_end(&out))) puts(ndr_text(s));
 *
 * C99 or C++11, and nothing but the C library. docs/FORMATS.md has the bytes that are written: the
 * machine's own byte order, pointer size and offsets, with pointers replaced by offsets into the
 * record. Padding is written as zeros, whatever stands in memory. A file without ndr_end has no end,
 * and every reader says so.
 */
#ifndef NDR_H
#define NDR_H

#include <limits.h>
#include <stddef.h>
#include <stdint.h>
#include <stdio.h>
#include <stdlib.h>
#include <string.h>

/* A field: its name, its type text, bytes of one element, bytes from the struct's start. */
typedef struct ndr_field {
  const char *name, *type;
  size_t size, offset;
} ndr_field;

/* A record type: its name, its bytes, its fields up to NDR_END. A field's nested type is an earlier one. */
typedef struct ndr_type {
  const char *name;
  size_t length;
  const ndr_field *fields;
} ndr_type;

#define NDR_FIELD(owner, member, type) { #member, type, sizeof(((owner *)0)->member), offsetof(owner, member) }
/* a static array ("integer[3]") or a pointer to elements that a field counts ("integer[n]") */
#define NDR_LIST(owner, member, type) { #member, type, sizeof(*((owner *)0)->member), offsetof(owner, member) }
#define NDR_END { NULL, NULL, 0, 0 }
#define NDR_TYPE(name, owner, fields) { name, sizeof(owner), fields }
#define NDR_NO_TYPE { NULL, 0, NULL }

typedef enum ndr_status {
  NDR_OK = 0,
  NDR_CLOSED,      /* the writer isn't open */
  NDR_FILE,        /* the file can't be opened or written: the disk is full, or as errno says */
  NDR_MEMORY,      /* there was no memory */
  NDR_NAME,        /* a type's or a field's name isn't 1 to 64 letters, digits and _, or is reserved */
  NDR_TWICE,       /* two types, or two fields of a type, have one name */
  NDR_TYPE_TEXT,   /* a type text isn't one, or names no earlier type */
  NDR_SIZE,        /* a size isn't allowed for its type word */
  NDR_OUTSIDE,     /* a field passes the end of its struct */
  NDR_OVERLAP,     /* two fields have bytes in common */
  NDR_COUNT_FIELD, /* an array's count is no single integer field of its struct */
  NDR_LIMIT,       /* more types, fields, bytes of a type or nesting than a format may have */
  NDR_FORMATS,     /* the file has 1,024 formats already */
  NDR_RECORDS,     /* the file has 131,072 records already */
  NDR_NO_FORMAT,   /* no format of this number was written */
  NDR_NEGATIVE,    /* an array's count is below 0 */
  NDR_NULL_LIST,   /* an array's count is above 0 and its pointer is null */
  NDR_TOO_LARGE,   /* the record is above the limit */
  NDR_TOO_LONG     /* the file would be above 16 MiB */
} ndr_status;

/* A status in words. */
static inline const char *ndr_text(ndr_status status) {
  static const char *const texts[] = {
    "ok", "closed", "file can't be written", "out of memory", "bad name", "name used twice", "type text",
    "size", "outside", "overlap", "count field", "limit of a format", "too many formats",
    "too many records", "no such format", "negative count", "null list", "record above the limit",
    "file above 16 MiB" };
  return (unsigned)status < sizeof texts / sizeof *texts ? texts[status] : "unknown";
}

/* What follows to ndr_writer serves the writer alone. */
enum { NDR_NUMBER, NDR_STRING, NDR_NESTED };
enum { NDR_ONE, NDR_FIXED, NDR_COUNTED };

typedef struct ndr_leaf { /* a field as it is resolved */
  unsigned char base, shape, count_size, count_signed;
  unsigned nested; /* the nested type's number in its format */
  size_t size, offset, elements, count_offset;
} ndr_leaf;

typedef struct ndr_known { /* a type as it is resolved */
  size_t length, fields, depth;
  ndr_leaf *leaves;
} ndr_known;

typedef struct ndr_layout {
  size_t types;
  ndr_known *known;
} ndr_layout;

/* A record file that is being written. `limit` is the longest record, 262,144 bytes after ndr_open. */
typedef struct ndr_writer {
  FILE *file;
  size_t limit, written, records, formats;
  ndr_layout *layouts;
  unsigned char *record; /* the record at hand */
  size_t used, room;
} ndr_writer;

static inline int ndr_is_name(const char *text, size_t size) {
  if (size < 1 || size > 64 || (text[0] >= '0' && text[0] <= '9')) return 0;
  for (size_t k = 0; k < size; k++) {
    const char c = text[k];
    if (!((c >= 'a' && c <= 'z') || (c >= 'A' && c <= 'Z') || (c >= '0' && c <= '9') || c == '_')) return 0;
  }
  return 1;
}

static inline int ndr_is(const char *text, size_t size, const char *word) {
  return strlen(word) == size && memcmp(text, word, size) == 0;
}

static inline int ndr_is_reserved(const char *text, size_t size) {
  static const char *const words[] = { "integer", "unsigned", "char", "boolean", "enumeration", "string", "float" };
  for (size_t k = 0; k < sizeof words / sizeof *words; k++)
    if (ndr_is(text, size, words[k])) return 1;
  return 0;
}

/* The word of a type text: what an element is. */
static inline ndr_status ndr_read_word(const ndr_type *types, size_t earlier, const ndr_field *field, size_t word,
                                       ndr_leaf *leaf) {
  const char *text = field->type;
  const size_t size = field->size;
  leaf->base = NDR_NUMBER;
  if (ndr_is(text, word, "char")) return size == 1 ? NDR_OK : NDR_SIZE;
  if (ndr_is(text, word, "string")) {
    leaf->base = NDR_STRING;
    return size == sizeof(char *) ? NDR_OK : NDR_SIZE;
  }
  if (ndr_is(text, word, "integer") || ndr_is(text, word, "unsigned integer") ||
      ndr_is(text, word, "boolean") || ndr_is(text, word, "enumeration"))
    return size == 1 || size == 2 || size == 4 || size == 8 ? NDR_OK : NDR_SIZE;
  if (!ndr_is_name(text, word) || ndr_is_reserved(text, word)) return NDR_TYPE_TEXT;
  for (size_t k = 0; k < earlier; k++)
    if (ndr_is(text, word, types[k].name)) {
      leaf->base = NDR_NESTED;
      leaf->nested = (unsigned)k;
      return size == types[k].length ? NDR_OK : NDR_SIZE;
    }
  return NDR_TYPE_TEXT;
}

/* The number of elements of a static array, or 0 where the text isn't one from 1 to 65,536. */
static inline size_t ndr_elements(const char *digits, size_t size) {
  size_t n = 0;
  if (size < 1 || size > 5 || digits[0] == '0') return 0;
  for (size_t k = 0; k < size; k++) {
    if (digits[k] < '0' || digits[k] > '9') return 0;
    n = 10 * n + (size_t)(digits[k] - '0');
  }
  return n <= 65536 ? n : 0;
}

static inline ndr_status ndr_find_count(const ndr_field *fields, const char *name, size_t size, ndr_leaf *leaf) {
  for (const ndr_field *f = fields; f->name; f++)
    if (ndr_is(name, size, f->name)) {
      leaf->count_signed = (unsigned char)(strcmp(f->type, "integer") == 0);
      if (!leaf->count_signed && strcmp(f->type, "unsigned integer") != 0) return NDR_COUNT_FIELD;
      leaf->count_size = (unsigned char)f->size;
      leaf->count_offset = f->offset;
      return NDR_OK;
    }
  return NDR_COUNT_FIELD;
}

/* Resolves one field of type `number`. */
static inline ndr_status ndr_resolve_field(const ndr_type *types, size_t number, const ndr_field *field,
                                           ndr_leaf *leaf) {
  const char *open = strchr(field->type, '[');
  const size_t whole = strlen(field->type), word = open ? (size_t)(open - field->type) : whole;
  ndr_status status;
  if (whole > 255) return NDR_TYPE_TEXT;
  memset(leaf, 0, sizeof *leaf);
  leaf->size = field->size;
  leaf->offset = field->offset;
  leaf->elements = 1;
  leaf->shape = NDR_ONE;
  if ((status = ndr_read_word(types, number, field, word, leaf)) != NDR_OK) return status;
  if (open) {
    const char *inside = open + 1;
    const size_t size = whole - word - 2;
    if (whole < word + 3 || field->type[whole - 1] != ']') return NDR_TYPE_TEXT;
    if (ndr_is_name(inside, size)) {
      leaf->shape = NDR_COUNTED;
      if ((status = ndr_find_count(types[number].fields, inside, size, leaf)) != NDR_OK) return status;
    } else {
      leaf->shape = NDR_FIXED;
      if ((leaf->elements = ndr_elements(inside, size)) == 0) return NDR_TYPE_TEXT;
    }
  }
  return NDR_OK;
}

/* Bytes that a field takes inside its struct. */
static inline size_t ndr_extent(const ndr_leaf *leaf) {
  return leaf->shape == NDR_COUNTED ? sizeof(void *) : leaf->elements * leaf->size;
}

/* Resolves the fields of type `number`, whose names and places are tested here. */
static inline ndr_status ndr_resolve_type(const ndr_type *types, size_t number, ndr_layout *layout) {
  const ndr_type *type = &types[number];
  ndr_known *known = &layout->known[number];
  known->depth = 1;
  for (size_t k = 0; k < known->fields; k++) {
    const ndr_field *field = &type->fields[k];
    ndr_leaf *leaf = &known->leaves[k];
    ndr_status status;
    if (!ndr_is_name(field->name, strlen(field->name))) return NDR_NAME;
    for (size_t j = 0; j < k; j++)
      if (strcmp(field->name, type->fields[j].name) == 0) return NDR_TWICE;
    if ((status = ndr_resolve_field(types, number, field, leaf)) != NDR_OK) return status;
    if (leaf->offset > type->length || ndr_extent(leaf) > type->length - leaf->offset) return NDR_OUTSIDE;
    for (size_t j = 0; j < k; j++) {
      const ndr_leaf *other = &known->leaves[j];
      if (leaf->offset < other->offset + ndr_extent(other) && other->offset < leaf->offset + ndr_extent(leaf))
        return NDR_OVERLAP;
    }
    if (leaf->base == NDR_NESTED && layout->known[leaf->nested].depth + 1 > known->depth)
      known->depth = layout->known[leaf->nested].depth + 1;
  }
  return known->depth <= 16 ? NDR_OK : NDR_LIMIT;
}

static inline void ndr_forget(ndr_layout *layout) {
  for (size_t k = 0; layout->known && k < layout->types; k++) free(layout->known[k].leaves);
  free(layout->known);
  layout->known = NULL;
}

/* Resolves a table of types; what was taken is given back where it is refused. */
static inline ndr_status ndr_resolve(const ndr_type *types, ndr_layout *layout) {
  size_t all = 0;
  ndr_status status = NDR_OK;
  layout->types = 0;
  layout->known = NULL;
  while (types[layout->types].name) layout->types++;
  if (layout->types < 1 || layout->types > 64) return NDR_LIMIT;
  layout->known = (ndr_known *)calloc(layout->types, sizeof(ndr_known));
  if (!layout->known) return NDR_MEMORY;
  for (size_t k = 0; k < layout->types && status == NDR_OK; k++) {
    ndr_known *known = &layout->known[k];
    const size_t size = strlen(types[k].name);
    known->length = types[k].length;
    while (types[k].fields[known->fields].name) known->fields++;
    all += known->fields;
    if (!ndr_is_name(types[k].name, size) || ndr_is_reserved(types[k].name, size)) status = NDR_NAME;
    for (size_t j = 0; j < k && status == NDR_OK; j++)
      if (strcmp(types[k].name, types[j].name) == 0) status = NDR_TWICE;
    if (status == NDR_OK && (known->length < 1 || known->length > 65536 || all > 4096)) status = NDR_LIMIT;
    if (status == NDR_OK && (known->fields < 1 || known->fields > 1024)) status = NDR_LIMIT;
    if (status == NDR_OK && !(known->leaves = (ndr_leaf *)calloc(known->fields, sizeof(ndr_leaf)))) status = NDR_MEMORY;
    if (status == NDR_OK) status = ndr_resolve_type(types, k, layout);
  }
  if (status != NDR_OK) ndr_forget(layout);
  return status;
}

/* Appends zeros to the record at hand. */
static inline ndr_status ndr_grow(ndr_writer *out, size_t size) {
  if (size > out->limit) return NDR_TOO_LARGE;
  if (size > out->room) {
    const size_t room = size > 2 * out->room ? size : 2 * out->room;
    unsigned char *more = (unsigned char *)realloc(out->record, room);
    if (!more) return NDR_MEMORY;
    out->record = more;
    out->room = room;
  }
  memset(out->record + out->used, 0, size - out->used);
  out->used = size;
  return NDR_OK;
}

/* A new block of that many bytes at the next multiple of 8. */
static inline ndr_status ndr_block(ndr_writer *out, size_t size, size_t *first) {
  *first = (out->used + 7) / 8 * 8;
  return *first > out->limit || size > out->limit - *first ? NDR_TOO_LARGE : ndr_grow(out, *first + size);
}

static inline void ndr_point(ndr_writer *out, size_t at, size_t block) {
  const uintptr_t pointer = (uintptr_t)block;
  memcpy(out->record + at, &pointer, sizeof pointer);
}

static inline const unsigned char *ndr_pointer(const unsigned char *from) {
  const unsigned char *pointer;
  memcpy(&pointer, from, sizeof pointer);
  return pointer;
}

/* The count of a counted array; above SIZE_MAX it is SIZE_MAX, which no limit allows. */
static inline ndr_status ndr_count(const ndr_leaf *leaf, const unsigned char *record, size_t *count) {
  const unsigned char *from = record + leaf->count_offset;
  uint64_t n = 0;
  if (leaf->count_size == 1) n = leaf->count_signed ? (uint64_t)(int64_t)(int8_t)*from : *from;
  else if (leaf->count_size == 2) {
    uint16_t v;
    memcpy(&v, from, 2);
    n = leaf->count_signed ? (uint64_t)(int64_t)(int16_t)v : v;
  } else if (leaf->count_size == 4) {
    uint32_t v;
    memcpy(&v, from, 4);
    n = leaf->count_signed ? (uint64_t)(int64_t)(int32_t)v : v;
  } else memcpy(&n, from, 8);
  if (leaf->count_signed && n >> 63) return NDR_NEGATIVE;
  *count = n > SIZE_MAX ? SIZE_MAX : (size_t)n;
  return NDR_OK;
}

static inline ndr_status ndr_put_record(ndr_writer *out, const ndr_layout *layout, size_t type,
                                        const unsigned char *from, size_t at);

/* One element of a field, at `at` of the record at hand. */
static inline ndr_status ndr_put_element(ndr_writer *out, const ndr_layout *layout, const ndr_leaf *leaf,
                                         const unsigned char *from, size_t at) {
  const unsigned char *text;
  size_t size, first;
  ndr_status status;
  if (leaf->base == NDR_NUMBER) {
    memcpy(out->record + at, from, leaf->size);
    return NDR_OK;
  }
  if (leaf->base == NDR_NESTED) return ndr_put_record(out, layout, leaf->nested, from, at);
  if (!(text = ndr_pointer(from))) return NDR_OK;
  size = strlen((const char *)text) + 1;
  if ((status = ndr_block(out, size, &first)) != NDR_OK) return status;
  memcpy(out->record + first, text, size);
  ndr_point(out, at, first);
  return NDR_OK;
}

/* The elements of an array, the first at `at` of the record at hand. */
static inline ndr_status ndr_put_elements(ndr_writer *out, const ndr_layout *layout, const ndr_leaf *leaf,
                                          const unsigned char *from, size_t at, size_t count) {
  if (leaf->base == NDR_NUMBER) {
    memcpy(out->record + at, from, count * leaf->size);
    return NDR_OK;
  }
  for (size_t k = 0; k < count; k++) {
    const ndr_status status = ndr_put_element(out, layout, leaf, from + k * leaf->size, at + k * leaf->size);
    if (status != NDR_OK) return status;
  }
  return NDR_OK;
}

/* A record of that type, from memory to `at` of the record at hand, which is zero there. */
static inline ndr_status ndr_put_record(ndr_writer *out, const ndr_layout *layout, size_t type,
                                        const unsigned char *from, size_t at) {
  const ndr_known *known = &layout->known[type];
  for (size_t k = 0; k < known->fields; k++) {
    const ndr_leaf *leaf = &known->leaves[k];
    const unsigned char *own = from + leaf->offset;
    size_t to = at + leaf->offset, count = leaf->elements;
    ndr_status status;
    if (leaf->shape == NDR_COUNTED) {
      if ((status = ndr_count(leaf, from, &count)) != NDR_OK) return status;
      if (count == 0) continue;
      if (!(own = ndr_pointer(own))) return NDR_NULL_LIST;
      if (count > out->limit / leaf->size) return NDR_TOO_LARGE;
      if ((status = ndr_block(out, count * leaf->size, &to)) != NDR_OK) return status;
      ndr_point(out, at + leaf->offset, to);
    }
    if ((status = ndr_put_elements(out, layout, leaf, own, to, count)) != NDR_OK) return status;
  }
  return NDR_OK;
}

static inline ndr_status ndr_put(ndr_writer *out, const void *bytes, size_t size) {
  if (size > (size_t)16 * 1024 * 1024 - 1 - out->written) return NDR_TOO_LONG;
  if (fwrite(bytes, 1, size, out->file) != size) return NDR_FILE;
  out->written += size;
  return NDR_OK;
}

/* A number of a frame or a description: big endian, whatever the machine is. */
static inline unsigned char *ndr_number(unsigned char *to, size_t size, size_t n) {
  for (size_t k = size; k-- > 0; n >>= 8) to[k] = (unsigned char)(n & 0xff);
  return to + size;
}

static inline unsigned char *ndr_short_text(unsigned char *to, const char *text) {
  const size_t size = strlen(text);
  *to = (unsigned char)size;
  memcpy(to + 1, text, size);
  return to + 1 + size;
}

/* The description of types that were resolved, with its frame's letter and length ahead. */
static inline ndr_status ndr_describe(ndr_writer *out, const ndr_type *types, const ndr_layout *layout) {
  const union { uint16_t word; unsigned char bytes[2]; } probe = { 1 };
  size_t size = 5 + 8;
  unsigned char *frame, *to;
  ndr_status status;
  for (size_t k = 0; k < layout->types; k++) {
    size += 1 + strlen(types[k].name) + 6;
    for (const ndr_field *f = types[k].fields; f->name; f++) size += 2 + strlen(f->name) + strlen(f->type) + 8;
  }
  if (!(frame = (unsigned char *)malloc(size))) return NDR_MEMORY;
  frame[0] = 'F';
  to = ndr_number(frame + 1, 4, size - 5);
  memcpy(to, "NDF1", 4);
  to[4] = probe.bytes[0] ? 0 : 1;
  to[5] = (unsigned char)sizeof(void *);
  to = ndr_number(to + 6, 2, layout->types);
  for (size_t k = 0; k < layout->types; k++) {
    to = ndr_number(ndr_number(ndr_short_text(to, types[k].name), 4, types[k].length), 2, layout->known[k].fields);
    for (const ndr_field *f = types[k].fields; f->name; f++)
      to = ndr_number(ndr_number(ndr_short_text(ndr_short_text(to, f->name), f->type), 4, f->size), 4, f->offset);
  }
  status = ndr_put(out, frame, size);
  free(frame);
  return status;
}

/* Opens a record file for writing; what it held is gone. */
static inline ndr_status ndr_open(ndr_writer *out, const char *path) {
  memset(out, 0, sizeof *out);
  out->limit = 262144;
  out->file = fopen(path, "wb");
  return out->file ? ndr_put(out, "NDR1", 4) : NDR_FILE;
}

/* Writes the description of a table of types, whose last is the record; `*number` names it. */
static inline ndr_status ndr_format(ndr_writer *out, const ndr_type *types, unsigned *number) {
  ndr_layout layout, *more;
  ndr_status status;
  if (!out->file) return NDR_CLOSED;
  if (out->formats == 1024) return NDR_FORMATS;
  if ((status = ndr_resolve(types, &layout)) != NDR_OK) return status;
  more = (ndr_layout *)realloc(out->layouts, (out->formats + 1) * sizeof *more);
  if (!more) {
    ndr_forget(&layout);
    return NDR_MEMORY;
  }
  out->layouts = more;
  if ((status = ndr_describe(out, types, &layout)) != NDR_OK) {
    ndr_forget(&layout);
    return status;
  }
  out->layouts[out->formats] = layout;
  *number = (unsigned)out->formats++;
  return NDR_OK;
}

/* Writes the record at `record`, with the strings and arrays that it points to. A record that is
 * refused leaves the file as it was. */
static inline ndr_status ndr_write(ndr_writer *out, unsigned number, const void *record) {
  unsigned char head[7];
  ndr_status status;
  size_t last;
  if (!out->file) return NDR_CLOSED;
  if (number >= out->formats) return NDR_NO_FORMAT;
  if (out->records == 131072) return NDR_RECORDS;
  last = out->layouts[number].types - 1;
  out->used = 0;
  if ((status = ndr_grow(out, out->layouts[number].known[last].length)) != NDR_OK) return status;
  status = ndr_put_record(out, &out->layouts[number], last, (const unsigned char *)record, 0);
  if (status != NDR_OK) return status;
  if (out->used + sizeof head > (size_t)16 * 1024 * 1024 - 1 - out->written) return NDR_TOO_LONG;
  head[0] = 'R';
  ndr_number(ndr_number(head + 1, 2, number), 4, out->used);
  if ((status = ndr_put(out, head, sizeof head)) != NDR_OK) return status;
  if ((status = ndr_put(out, out->record, out->used)) != NDR_OK) return status;
  out->records++;
  return NDR_OK;
}

/* Closes the file without its end: a reader sees that it isn't whole. */
static inline ndr_status ndr_abandon(ndr_writer *out) {
  FILE *file = out->file;
  if (!file) return NDR_CLOSED;
  for (size_t k = 0; k < out->formats; k++) ndr_forget(&out->layouts[k]);
  free(out->layouts);
  free(out->record);
  memset(out, 0, sizeof *out);
  return fclose(file) == 0 ? NDR_OK : NDR_FILE;
}

/* Writes the file's end and closes it. Where this isn't NDR_OK the file isn't whole; it isn't where a write failed
 * before, also one that was tried again. */
static inline ndr_status ndr_end(ndr_writer *out) {
  ndr_status status, closed;
  if (!out->file) return NDR_CLOSED;
  status = fwrite("E", 1, 1, out->file) == 1 && fflush(out->file) == 0 && !ferror(out->file) ? NDR_OK : NDR_FILE;
  closed = ndr_abandon(out);
  return status != NDR_OK ? status : closed;
}

#endif
