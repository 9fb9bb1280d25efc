/* vejgodat near and regions: what is asked of parts. */
#include "cli.h"

#include <stdlib.h>
#include <string.h>

/* Axis and limits of a probe: AXIS,LIMIT or AXIS,LOW,HIGH, the axis x, y or z. */
static uint32_t
axis_of (const arguments * a, const char *text, float *limits, int count)
{
  if (text[0] < 'x' || 'z' < text[0] || text[1] != ',') {
    bad_usage (a->command, "x, y or z, and limits with commas between", text);
  }
  floats_of (a->command, text + 2, limits, count);
  return (uint32_t) (text[0] - 'x');
}

static vejgodat_count
probe (const arguments * a, const input * in, const frame * f,
       uint32_t * out, size_t out_len)
{
  float               at[3];
  uint32_t            axis;

  if (a->value[OPT_POINT] != NULL) {
    floats_of (a->command, a->value[OPT_POINT], at, 3);
    return vejgodat_trees_at_point (in->bytes, in->length, f->table.bytes,
                                    f->table.length, f->rank, at[0], at[1],
                                    at[2], out, out_len);
  }
  if (a->value[OPT_BELOW] != NULL) {
    axis = axis_of (a, a->value[OPT_BELOW], at, 1);
    return vejgodat_trees_below (in->bytes, in->length, f->table.bytes,
                                 f->table.length, f->rank, axis, at[0], out,
                                 out_len);
  }
  axis = axis_of (a, a->value[OPT_BETWEEN], at, 2);
  return vejgodat_trees_between (in->bytes, in->length, f->table.bytes,
                                 f->table.length, f->rank, axis, at[0],
                                 at[1], out, out_len);
}

/* The numbers of the trees of one part that are met. */
static int
near_input (const arguments * a, writer * w, const input * in,
            const input * table, progress * p)
{
  frame               f = frame_of (a, in, table);
  /* a part has a tree for each 64 bytes at most */
  const size_t        most = in->length / 64 + 1;
  uint32_t           *met = room (sizeof *met * most), i;
  vejgodat_count      answer = { VEJGODAT_PART, 0 };
  int                 status = 0;

  if (f.refusal == VEJGODAT_OK) {
    answer = probe (a, in, &f, met, most);
  }
  progress_end (p);
  for (i = 0; i < answer.count; ++i) {
    met[i] = vejgodat_part_number (in->bytes, met[i]);
  }
  if (answer.refusal != VEJGODAT_OK) {
    status = complain_as (a, PART, in, table, answer.refusal);
  }
  else if (w->json) {
    begin (w, NULL, '{');
    put_text (w, "file", in->name);
    put_text (w, "table", f.own ? "header" : "given");
    put_numbers (w, "trees", met, answer.count);
    end (w, '}');
  }
  else {
    printf ("%s: %s", in->name, answer.count == 0 ? "no tree"
            : answer.count == 1 ? "tree " : "trees ");
    for (i = 0; i < answer.count; ++i) {
      printf ("%s%" PRIu32, i == 0 ? "" : ", ", met[i]);
    }
    printf ("\n");
  }
  free (met);
  close_frame (&f);
  return status;
}

static int
run_near (const arguments * a)
{
  writer              w = { a->value[OPT_JSON] != NULL, 0, 1 };
  progress            p = progress_of ("probing part");
  input               in, table;
  const input        *given;
  int                 i, status = 0;

  if ((a->value[OPT_POINT] != NULL) + (a->value[OPT_BELOW] != NULL)
      + (a->value[OPT_BETWEEN] != NULL) != 1) {
    bad_usage (a->command, "one of these is needed",
               "--point, --below, --between");
  }
  if (table_given (a, &table, &given) != 0) {
    return 1;
  }
  if (w.json) {
    begin (&w, NULL, '[');
  }
  for (i = 0; i < a->count; ++i) {
    progress_at (&p, (uint64_t) i + 1, (uint64_t) a->count);
    if (take_input (&in, a->names[i]) != 0) {
      status = 1;
      continue;
    }
    status |= near_input (a, &w, &in, given, &p);
    close_input (&in);
  }
  if (w.json) {
    end (&w, ']');
    finish (&w);
  }
  close_input (&table);
  return status;
}

const command       command_near = {
  "near", "PART... --point X,Y,Z | --below AXIS,LIMIT | --between"
    " AXIS,LOW,HIGH\n       [--table TABLE [--rank R]] [--json]",
  "list the trees whose box is near a probe",
  "For parts whose tree data are boxes: six floats, the low corner and the high\n"
    "one. Writes the numbers of the trees that are met, a line for each part. The\n"
    "status is 0 also where none is met.\n",
  TAKES (OPT_JSON) | TAKES (OPT_TABLE) | TAKES (OPT_RANK) | TAKES (OPT_POINT)
    | TAKES (OPT_BELOW) | TAKES (OPT_BETWEEN),
  1, -1, run_near
};

static int
regions_of (const arguments * a, const input * in, const input * table)
{
  writer              w = { a->value[OPT_JSON] != NULL, 0, 1 };
  frame               f = frame_of (a, in, table);
  uint32_t           *counts = room (sizeof *counts * VEJGODAT_REGIONS);
  uint32_t            refusal = VEJGODAT_PART, region;
  char                name[32];

  if (f.refusal == VEJGODAT_OK) {
    refusal = vejgodat_region_counts (in->bytes, in->length, f.table.bytes,
                                      f.table.length, f.rank, counts,
                                      VEJGODAT_REGIONS);
  }
  if (refusal != VEJGODAT_OK) {
    complain_as (a, PART, in, table, refusal);
  }
  else {
    begin (&w, NULL, '{');
    for (region = 0; region < VEJGODAT_REGIONS; ++region) {
      if (counts[region] > 0) {
        sprintf (name, "%s%" PRIu32, w.json ? "" : "region ", region);
        put_number (&w, name, counts[region]);
      }
    }
    end (&w, '}');
    finish (&w);
  }
  free (counts);
  close_frame (&f);
  return refusal != VEJGODAT_OK;
}

static int
run_regions (const arguments * a)
{
  input               in, table;
  const input        *given;
  int                 status = 1;

  if (table_given (a, &table, &given) == 0) {
    if (take_input (&in, a->names[0]) == 0) {
      status = regions_of (a, &in, given);
      close_input (&in);
    }
    close_input (&table);
  }
  return status;
}

const command       command_regions = {
  "regions", "PART [--table TABLE [--rank R]] [--json]",
  "count the trees of each region of a part",
  "Writes a line for each region that has trees. Ghosts aren't counted.\n",
  TAKES (OPT_JSON) | TAKES (OPT_TABLE) | TAKES (OPT_RANK), 1, 1, run_regions
};
