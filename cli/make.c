/* vejgodat cut, brick and triangle: files that the library makes. */
#include "cli.h"

#include <errno.h>
#include <stdlib.h>
#include <string.h>
#include <sys/stat.h>

/* Why a cut is refused: of a mesh, where it fails. */
static int
complain_cut (const arguments * a, const input * mesh, const input * table,
              uint32_t refusal)
{
  if (refusal != VEJGODAT_MESH) {
    return complain_refusal (table->name, refusal);
  }
  return vejgodat_check_mesh (mesh->bytes, mesh->length) == VEJGODAT_OK
    ? complain (mesh->name, "its K isn't the table's")
    : complain_as (a, MESH, mesh, NULL, refusal);
}

/* Cut the parts of all ranks into a folder, which is made where there is none. */
static int
cut_all (const arguments * a, const input * mesh, const input * table,
         uint8_t * part, size_t part_len)
{
  const char         *name = a->value[OPT_OUT];
  const uint32_t      ranks = table_ranks (table);
  char               *path = room (strlen (name) + 32);
  progress            p = progress_of ("cutting rank");
  vejgodat_length     cut;
  uint32_t            rank;
  int                 status = 0;

  for (rank = 0; rank < ranks && status == 0; ++rank) {
    progress_at (&p, rank, ranks);
    cut = vejgodat_cut_part (mesh->bytes, mesh->length, table->bytes,
                             table->length, rank, part, part_len);
    if (cut.refusal != VEJGODAT_OK) {
      status = complain_cut (a, mesh, table, cut.refusal);
    }
    else if (rank == 0 && mkdir (name, 0777) != 0 && errno != EEXIST) {
      status = complain (name, strerror (errno));
    }
    else {
      sprintf (path, "%s/%" PRIu32 ".part", name, rank);
      status = write_output (path, part, (size_t) cut.length);
    }
  }
  progress_end (&p);
  free (path);
  return status;
}

static int
cut_one (const arguments * a, const input * mesh, const input * table,
         uint8_t * part, size_t part_len)
{
  const uint32_t      rank = number_of (a->command, a->value[OPT_RANK]);
  const vejgodat_length cut =
    vejgodat_cut_part (mesh->bytes, mesh->length, table->bytes,
                       table->length, rank, part, part_len);

  return cut.refusal != VEJGODAT_OK ? complain_cut (a, mesh, table, cut.refusal)
    : deliver_output (a, part, (size_t) cut.length);
}

static int
run_cut (const arguments * a)
{
  input               mesh, table;
  uint8_t            *part;
  size_t              part_len;
  int                 status = 1;

  if (a->value[OPT_RANK] == NULL
      && (a->value[OPT_OUT] == NULL || a->value[OPT_JSON] != NULL)) {
    bad_usage (a->command, "the parts of all ranks need a folder and no"
               " --json", "-o DIR");
  }
  if (take_input (&mesh, a->names[0]) != 0) {
    return 1;
  }
  if (take_table (&table, a->names[1]) == 0) {
    /* 32 + 64 K bytes are enough for any part of a sound mesh, whose length is 8 + 64 K */
    part_len = mesh.length + 24;
    part = room (part_len);
    status = a->value[OPT_RANK] != NULL
      ? cut_one (a, &mesh, &table, part, part_len)
      : cut_all (a, &mesh, &table, part, part_len);
    free (part);
    close_input (&table);
  }
  close_input (&mesh);
  return status;
}

const command       command_cut = {
  "cut", "MESH TABLE --rank R [-o FILE] [--json] | MESH TABLE -o DIR",
  "cut the part of a rank, or of all, out of a mesh",
  "Writes the part of one rank to FILE or standard output, or the parts of all\n"
    "ranks to DIR/0.part, DIR/1.part and so on.\n",
  TAKES (OPT_JSON) | TAKES (OPT_RANK) | TAKES (OPT_OUT), 2, 2, run_cut
};

static int
run_brick (const arguments * a)
{
  const char         *axes = a->value[OPT_PERIODIC] == NULL ? ""
    : a->value[OPT_PERIODIC];
  uint32_t            extent[3];
  vejgodat_length     need;
  uint8_t            *mesh;
  int                 i, status;

  for (i = 0; i < 3; ++i) {
    extent[i] = number_of (a->command, a->names[i]);
  }
  if (axes[strspn (axes, "xyz")] != '\0') {
    bad_usage (a->command, "axes are x, y and z", axes);
  }
  need = vejgodat_brick_length (extent[0], extent[1], extent[2]);
  if (need.refusal != VEJGODAT_OK) {
    return complain_refusal ("brick", need.refusal);
  }
  mesh = room ((size_t) need.length);
  need = vejgodat_write_brick (extent[0], extent[1], extent[2],
                               strchr (axes, 'x') != NULL,
                               strchr (axes, 'y') != NULL,
                               strchr (axes, 'z') != NULL, mesh,
                               (size_t) need.length);
  status = need.refusal != VEJGODAT_OK
    ? complain_refusal ("brick", need.refusal)
    : deliver_output (a, mesh, (size_t) need.length);
  free (mesh);
  return status;
}

const command       command_brick = {
  "brick", "A B C [--periodic AXES] [-o FILE] [--json]",
  "make the mesh of a brick of hexahedra",
  "Writes the whole mesh of A by B by C hexahedra, each from 1 to 64, to FILE or\n"
    "standard output.\n",
  TAKES (OPT_JSON) | TAKES (OPT_PERIODIC) | TAKES (OPT_OUT), 3, 3, run_brick
};

static int
run_triangle (const arguments * a)
{
  input               text;
  vejgodat_length     need;
  uint8_t            *mesh = NULL;
  int                 status;

  if (take_input (&text, a->names[0]) != 0) {
    return 1;
  }
  need = vejgodat_triangle_length (text.bytes, text.length);
  if (need.refusal == VEJGODAT_OK) {
    mesh = room ((size_t) need.length);
    need = vejgodat_import_triangle (text.bytes, text.length, mesh,
                                     (size_t) need.length);
  }
  status = need.refusal != VEJGODAT_OK
    ? complain_refusal (text.name, need.refusal)
    : deliver_output (a, mesh, (size_t) need.length);
  free (mesh);
  close_input (&text);
  return status;
}

const command       command_triangle = {
  "triangle", "FILE.ele [-o FILE] [--json]",
  "make the mesh of an element file of Triangle",
  "Writes the whole mesh of the triangles to FILE or standard output.\n",
  TAKES (OPT_JSON) | TAKES (OPT_OUT), 1, 1, run_triangle
};
