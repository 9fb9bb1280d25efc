/* Runs the commands of the program `vejgodat` on mutated files: mutate TIMES FILE... changes one of the files at
 * random, from a fixed seed, writes it to `mutated` in the current folder and gives it to every command that reads
 * one. What the commands answer isn't looked at; that they end, with 0 or 1 and under the sanitizers, is the test. */
#include "../../cli/cli.h"

#include <stdlib.h>
#include <string.h>

#define MOST 65536

static uint64_t     state = 49;

static uint32_t
any (uint32_t below)
{
  state ^= state << 13;
  state ^= state >> 7;
  state ^= state << 17;
  return (uint32_t) ((state >> 16) % below);
}

static size_t
load (const char *name, uint8_t * bytes)
{
  FILE               *in = fopen (name, "rb");
  size_t              length = 0;

  if (in != NULL) {
    length = fread (bytes, 1, MOST / 2, in);
    fclose (in);
  }
  if (length == 0) {
    fprintf (stderr, "mutate: %s can't be read\n", name);
    exit (3);
  }
  return length;
}

/* One change: a byte, a bit, a number, or the length. */
static size_t
change (uint8_t * bytes, size_t length)
{
  static const uint32_t numbers[] =
    { 0, 1, 2, 3, 4, 12, 13, 4095, 4096, 16384, 16385, 1048576, 1048577,
    0x7fffffff, 0x80000000, 0xfffffffe, 0xffffffff
  };
  const uint32_t      place = any ((uint32_t) length);
  const uint32_t      header = any (12) * 4;

  switch (any (8)) {
  case 0:
    return 1 + any ((uint32_t) length);
  case 1:
    memset (bytes + length, (int) any (256), 64);
    return length + 1 + any (64);
  case 2:
  case 3:
    if (header + 4 <= length) {
      vejgodat_put_number (bytes + header,
                           numbers[any (sizeof numbers / sizeof *numbers)]);
    }
    return length;
  case 4:
    if (place / 4 * 4 + 4 <= length) {
      vejgodat_put_number (bytes + place / 4 * 4,
                           numbers[any (sizeof numbers / sizeof *numbers)]);
    }
    return length;
  case 5:
    bytes[place] = (uint8_t) any (256);
    return length;
  default:
    bytes[place] = (uint8_t) (bytes[place] ^ 1 << any (8));
    return length;
  }
}

static void
run (const command * c, char *one, char *other, int option, const char *value)
{
  char               *names[2];
  arguments           a;
  int                 status;

  memset (&a, 0, sizeof a);
  names[0] = one;
  names[1] = other;
  a.command = c;
  a.names = names;
  a.count = other == NULL ? 1 : 2;
  a.value[option] = value;
  if (c == &command_columns || c == &command_rows || c == &command_triangle) {
    a.value[OPT_OUT] = "made";
  }
  status = c->run (&a);
  if (status != 0 && status != 1) {
    exit (3);
  }
}

static void
run_all (char *base)
{
  static char         name[] = "mutated";
  char                place[16];
  const char         *kind = kind_names[any (KINDS)];

  sprintf (place, "%u", (unsigned) any (16));
  run (&command_check, name, NULL, OPT_AS, kind);
  run (&command_show, name, NULL, OPT_AS, kind);
  run (&command_diff, base, name, OPT_AS, kind);
  run (&command_check, name, NULL, OPT_JSON, "");
  run (&command_show, name, NULL, OPT_JSON, "");
  run (&command_show, name, NULL, OPT_RECORD, place);
  run (&command_show, name, NULL, OPT_TREE, place);
  run (&command_diff, name, base, OPT_JSON, "");
  run (&command_columns, name, NULL, OPT_JSON, "");
  run (&command_rows, name, NULL, OPT_JSON, "");
  run (&command_regions, name, NULL, OPT_RANK, place);
  run (&command_regions, name, NULL, OPT_JSON, "");
  run (&command_near, name, NULL, OPT_POINT, "0.5,0.5,0.5");
  run (&command_table, name, NULL, OPT_JSON, "");
  run (&command_plan, name, name, OPT_SVG, "");
  run (&command_plan, name, name, OPT_JSON, "");
  run (&command_triangle, name, NULL, OPT_JSON, "");
}

int
main (int argc, char **argv)
{
  static uint8_t      bytes[MOST];
  const long          times = argc < 3 ? 0 : strtol (argv[1], NULL, 10);
  size_t              length;
  uint32_t            changes;
  char               *base;
  FILE               *out;
  long                i;

  for (i = 0; i < times; ++i) {
    base = argv[2 + any ((uint32_t) argc - 2)];
    length = load (base, bytes);
    for (changes = any (4); changes < 5 && length > 0; changes += 1 + any (4)) {
      length = change (bytes, length);
    }
    /* files that are written over would be waited for */
    remove ("mutated");
    remove ("made");
    out = fopen ("mutated", "wb");
    if (out == NULL || fwrite (bytes, 1, length, out) != length
        || fclose (out) != 0) {
      return 3;
    }
    run_all (base);
  }
  return times > 0 ? 0 : 3;
}
