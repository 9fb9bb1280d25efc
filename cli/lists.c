/* Tables and lists of numbers, in bytes or in text. */
#include "cli.h"

#include <stdlib.h>
#include <string.h>

/* no list has more numbers than there can be trees */
#define MOST_NUMBERS VEJGODAT_MAX_TREES

static int
is_blank (uint8_t c)
{
  return c == ' ' || c == '\t' || c == '\r' || c == '\n' || c == ',';
}

int
is_text (const uint8_t * bytes, size_t length)
{
  size_t              i;

  for (i = 0; i < length; ++i) {
    if (!is_blank (bytes[i]) && bytes[i] != '-'
        && (bytes[i] < '0' || '9' < bytes[i])) {
      return 0;
    }
  }
  return length > 0;
}

/* One number of at most 18 digits, so that no sum is too large. */
static int
read_number (const uint8_t * bytes, size_t length, size_t *at,
             int64_t * number)
{
  const int           minus = bytes[*at] == '-';
  size_t              digits = 0;

  *number = 0;
  *at += (size_t) minus;
  for (; *at < length && '0' <= bytes[*at] && bytes[*at] <= '9'; ++*at) {
    *number = digits < 18 ? 10 * *number + (bytes[*at] - '0') : 0;
    ++digits;
  }
  *number = minus ? -*number : *number;
  return 1 <= digits && digits <= 18
    && (*at == length || is_blank (bytes[*at]));
}

const char         *
read_numbers (const input * in, numbers * found)
{
  size_t              at = 0;

  found->count = 0;
  /* a number and what follows it take two bytes at least */
  found->list = room (sizeof *found->list
                      * (in->length / 2 < MOST_NUMBERS ? in->length / 2 + 1
                         : MOST_NUMBERS));
  while (at < in->length) {
    if (is_blank (in->bytes[at])) {
      ++at;
      continue;
    }
    if (found->count == MOST_NUMBERS
        || !read_number (in->bytes, in->length, &at,
                         &found->list[found->count])) {
      free (found->list);
      found->list = NULL;
      return "the text isn't whole numbers with commas or blanks between, at"
        " most 1,048,576 of them";
    }
    ++found->count;
  }
  return NULL;
}

int
take_list (const char *name, uint32_t ** list, size_t *count)
{
  input               in;
  numbers             found = { NULL, 0 };
  const char         *words;
  size_t              i;

  if (take_input (&in, name) != 0) {
    return 1;
  }
  words = read_numbers (&in, &found);
  close_input (&in);
  if (words != NULL) {
    return complain (name, words);
  }
  *list = room (sizeof **list * (found.count + 1));
  *count = found.count;
  for (i = 0; i < found.count; ++i) {
    if (found.list[i] < 0 || found.list[i] > UINT32_MAX) {
      free (*list);
      free (found.list);
      return complain (name, "a number isn't from 0 to 4294967295");
    }
    (*list)[i] = (uint32_t) found.list[i];
  }
  free (found.list);
  return 0;
}

const char         *
read_table (const input * in, input * table)
{
  numbers             found;
  const char         *words = read_numbers (in, &found);
  uint8_t            *bytes;
  uint64_t            entry;
  size_t              i, j;

  if (words != NULL) {
    return words;
  }
  bytes = room (8 * found.count);
  for (i = 0; i < found.count; ++i) {
    entry = (uint64_t) found.list[i];
    for (j = 0; j < 8; ++j) {
      bytes[8 * i + j] = (uint8_t) (entry >> 8 * j & 255);
    }
  }
  free (found.list);
  memset (table, 0, sizeof *table);
  table->name = in->name;
  table->bytes = table->memory = bytes;
  table->length = 8 * found.count;
  return NULL;
}

const char         *
open_table (input * in, const char *name)
{
  const char         *words = open_input (in, name);
  input               table;

  /* a valid table begins with eight zero bytes, so it is never taken for text */
  if (words == NULL && is_text (in->bytes, in->length)) {
    words = read_table (in, &table);
    close_input (in);
    if (words == NULL) {
      *in = table;
    }
  }
  return words;
}

int
take_table (input * in, const char *name)
{
  const char         *words = open_table (in, name);
  vejgodat_fault      fault;

  if (words != NULL) {
    return complain (in->name, words);
  }
  fault = vejgodat_table_fault (in->bytes, in->length);
  if (fault.refusal != VEJGODAT_OK || fault.fault != VEJGODAT_OK) {
    close_input (in);
    return complain_fault (in->name, fault);
  }
  return 0;
}

uint32_t
table_ranks (const input * table)
{
  return (uint32_t) (table->length / 8 - 1);
}

uint32_t
table_trees (const input * table)
{
  return vejgodat_number_at (table->bytes + table->length - 8);
}
