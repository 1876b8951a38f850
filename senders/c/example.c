/* Three files as simulations and monitors write them: a sensor, an order with nested items, a row of a matrix.
 * cc -std=c99 -Wall -Wextra -o example example.c && ./example FOLDER */
#include "ndr.h"

struct sensor { uint32_t id; char *name; int32_t n; int16_t *v; };
struct item { uint32_t id; char *label; int16_t qty; };
struct order { char *customer; uint16_t n; struct item *items; int64_t total; };
struct row { uint32_t index; int32_t cells[4]; };

static const ndr_field sensor_fields[] = {
  NDR_FIELD(struct sensor, id, "unsigned integer"), NDR_FIELD(struct sensor, name, "string"),
  NDR_FIELD(struct sensor, n, "integer"), NDR_LIST(struct sensor, v, "integer[n]"), NDR_END };
static const ndr_type sensor_types[] = { NDR_TYPE("sensor", struct sensor, sensor_fields), NDR_NO_TYPE };

static const ndr_field item_fields[] = {
  NDR_FIELD(struct item, id, "unsigned integer"), NDR_FIELD(struct item, label, "string"),
  NDR_FIELD(struct item, qty, "integer"), NDR_END };
static const ndr_field order_fields[] = {
  NDR_FIELD(struct order, customer, "string"), NDR_FIELD(struct order, n, "unsigned integer"),
  NDR_LIST(struct order, items, "item[n]"), NDR_FIELD(struct order, total, "integer"), NDR_END };
static const ndr_type order_types[] = {
  NDR_TYPE("item", struct item, item_fields), NDR_TYPE("order", struct order, order_fields), NDR_NO_TYPE };

static const ndr_field row_fields[] = {
  NDR_FIELD(struct row, index, "unsigned integer"), NDR_LIST(struct row, cells, "integer[4]"), NDR_END };
static const ndr_type row_types[] = { NDR_TYPE("row", struct row, row_fields), NDR_NO_TYPE };

/* Writes one file of these records. */
static ndr_status write_all(const char *folder, const char *name, const ndr_type *types, const void *records,
                            size_t size, size_t count) {
  char path[4096];
  ndr_writer out;
  unsigned kind;
  ndr_status status;
  snprintf(path, sizeof path, "%s/%s", folder, name);
  if ((status = ndr_open(&out, path)) != NDR_OK) return status;
  status = ndr_format(&out, types, &kind);
  for (size_t k = 0; k < count && status == NDR_OK; k++)
    status = ndr_write(&out, kind, (const char *)records + k * size);
  if (status == NDR_OK) return ndr_end(&out);
  ndr_abandon(&out);
  return status;
}

int main(int words, char **word) {
  char north[] = "north", bolt[] = "bolt", ada[] = "Ada Lovelace", none[] = "";
  int16_t readings[] = { 21, -4, 300 };
  struct item items[] = { { 1, bolt, 12 }, { 2, NULL, -1 } };
  struct sensor sensors[] = { { 7, north, 3, readings }, { 8, NULL, 0, NULL }, { 9, none, 1, readings } };
  struct order orders[] = { { ada, 2, items, 4200000000 }, { NULL, 0, NULL, -1 } };
  struct row rows[] = { { 0, { 1, 2, 3, 4 } }, { 1, { -1, -2, -3, -4 } } };
  const char *folder = words > 1 ? word[1] : ".";
  ndr_status status = write_all(folder, "sensor.ndr", sensor_types, sensors, sizeof *sensors, 3);
  if (status == NDR_OK) status = write_all(folder, "order.ndr", order_types, orders, sizeof *orders, 2);
  if (status == NDR_OK) status = write_all(folder, "row.ndr", row_types, rows, sizeof *rows, 2);
  if (status != NDR_OK) fprintf(stderr, "example: %s\n", ndr_text(status));
  return status == NDR_OK ? 0 : 1;
}
