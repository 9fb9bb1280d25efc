/* Checkpoints that any number of ranks can load again, found by their fingerprints:
 *
 *   mpirun -n P checkpoint run DIR STEPS [columns]   computes and stores steps 0 to STEPS
 *   mpirun -n Q checkpoint restart DIR [STEP]        loads the last step, or the one given, and stores the one after it
 *
 * The exit status is 0 only if the last of these steps is stored. */
#include "model.h"
#include "restart.h"

#include <stdio.h>
#include <stdlib.h>
#include <string.h>

/* Store a step: its parts first, and when all of them are there the manifest. Collective. */
static int
store_step (const char *folder, int columns, uint32_t step,
            const int64_t * table, uint32_t ranks, uint32_t me,
            const mesh_part * part)
{
  const size_t        table_len = VEJGODAT_TABLE_BYTES (ranks);
  manifest            it = new_manifest (ranks);
  print               mine;
  int                 well;

  well = store_part (folder, columns, part, (const uint8_t *) table,
                     table_len, me, mine);
  MPI_Gather (mine, sizeof mine, MPI_CHAR, it.prints, sizeof mine, MPI_CHAR,
              0, MPI_COMM_WORLD);
  well = all_well (well);
  if (well && me == 0) {
    it.columns = columns;
    it.dimension = vejgodat_part_dimension (part->bytes);
    it.epoch = step;
    memcpy (it.table, table, table_len);
    well = store_manifest (folder, &it);
    if (well) {
      printf ("step %u of %u ranks is stored\n", (unsigned) step,
              (unsigned) ranks);
      fflush (stdout);
    }
  }
  free_manifest (&it);
  return all_well (well);
}

/* This rank's part of the whole mesh under the first table. */
static void
first_part (const int64_t * table, uint32_t ranks, uint32_t me,
            mesh_part * part)
{
  const size_t        mesh_len = VEJGODAT_MESH_BYTES (TREES);
  uint8_t            *mesh = room (mesh_len);
  vejgodat_length     length;

  make_box (mesh);
  length = vejgodat_part_length (mesh, mesh_len, (const uint8_t *) table,
                                 VEJGODAT_TABLE_BYTES (ranks), me);
  must (length.refusal, "vejgodat_part_length");
  part->length = (size_t) length.length;
  part->bytes = room (part->length);
  length = vejgodat_cut_part (mesh, mesh_len, (const uint8_t *) table,
                              VEJGODAT_TABLE_BYTES (ranks), me, part->bytes,
                              part->length);
  must (length.refusal, "vejgodat_cut_part");
  free (mesh);
}

/* A folder for the steps of a new run. */
static int
new_folder (const char *folder)
{
  int64_t             step;

  return make_folder (folder) && last_step (folder, &step)
    && (step < 0 || complain (folder, "has steps already, up to %u: restart"
                              " goes on from there", (unsigned) step));
}

static int
run (const char *folder, uint32_t steps, int columns, uint32_t ranks,
     uint32_t me)
{
  const size_t        table_len = VEJGODAT_TABLE_BYTES (ranks);
  int64_t            *table = room (table_len), *next = room (table_len);
  mesh_part           part;
  uint32_t            step;
  int                 well;

  make_table (0, ranks, table);
  first_part (table, ranks, me, &part);
  well = all_well (me != 0 || new_folder (folder))
    && store_step (folder, columns, 0, table, ranks, me, &part);
  for (step = 1; step <= steps && well; ++step) {
    make_table (step, ranks, next);
    exchange (MPI_COMM_WORLD, step, (const uint8_t *) table,
              (const uint8_t *) next, table_len, &part);
    memcpy (table, next, table_len);
    well = store_step (folder, columns, step, table, ranks, me, &part);
  }
  free (part.bytes);
  free (next);
  free (table);
  return well;
}

/* The step to load: the one given, or the last. */
static int
step_to_load (const char *folder, const char *given, uint32_t * step)
{
  int64_t             last;

  if (given != NULL) {
    *step = (uint32_t) strtoul (given, NULL, 10);
    return 1;
  }
  if (!last_step (folder, &last)) {
    return 0;
  }
  *step = (uint32_t) last;
  return last >= 0 || complain (folder, "no step is stored here");
}

/* The manifest of the step to load: read by the first process, given to all. Collective. */
static int
share_manifest (const char *folder, const char *given, uint32_t me,
                manifest * it)
{
  uint64_t            about[2] = { 0, 0 };      /* its length, 0 for none; the step */
  uint32_t            step;
  uint8_t            *text = NULL;
  size_t              length;
  int                 well;

  if (me == 0 && step_to_load (folder, given, &step)
      && load_manifest (folder, step, &text, &length)
      && read_manifest (folder, step, text, length, it)) {
    about[0] = length;
    about[1] = step;
    free_manifest (it);
  }
  MPI_Bcast (about, 2, MPI_UINT64_T, 0, MPI_COMM_WORLD);
  well = about[0] > 0;
  if (well) {
    if (me != 0) {
      text = room ((size_t) about[0] + 1);
      text[about[0]] = '\0';
    }
    MPI_Bcast (text, (int) about[0], MPI_BYTE, 0, MPI_COMM_WORLD);
    well = read_manifest (folder, (uint32_t) about[1], text,
                          (size_t) about[0], it);
  }
  free (text);
  return well;
}

static int
go_on (const char *folder, const char *given, uint32_t ranks, uint32_t me)
{
  int64_t            *table;
  manifest            old;
  mesh_part           part;
  int                 well;

  if (!share_manifest (folder, given, me, &old)) {
    return 0;
  }
  table = room (VEJGODAT_TABLE_BYTES (ranks));
  make_table (old.epoch + 1, ranks, table);
  well = restart (folder, &old, table, old.epoch + 1, &part);
  if (well) {
    if (me == 0) {
      printf ("step %u of %u ranks is loaded\n", (unsigned) old.epoch,
              (unsigned) old.ranks);
      fflush (stdout);
    }
    well = store_step (folder, old.columns, old.epoch + 1, table, ranks, me,
                       &part);
    free (part.bytes);
  }
  free (table);
  free_manifest (&old);
  return well;
}

/* Whether a word is a step's number. */
static int
is_step (const char *word)
{
  const size_t        digits = strspn (word, "0123456789");

  return digits >= 1 && digits <= 8 && word[digits] == '\0';
}

int
main (int argc, char **argv)
{
  int                 size, rank, well = 0;
  uint32_t            ranks, me;

  MPI_Init (&argc, &argv);
  MPI_Comm_size (MPI_COMM_WORLD, &size);
  MPI_Comm_rank (MPI_COMM_WORLD, &rank);
  ranks = (uint32_t) size;
  me = (uint32_t) rank;
  if ((argc == 4 || (argc == 5 && strcmp (argv[4], "columns") == 0))
      && strcmp (argv[1], "run") == 0 && is_step (argv[3])) {
    well = run (argv[2], (uint32_t) strtoul (argv[3], NULL, 10), argc == 5,
                ranks, me);
  }
  else if ((argc == 3 || (argc == 4 && is_step (argv[3])))
           && strcmp (argv[1], "restart") == 0) {
    well = go_on (argv[2], argc == 4 ? argv[3] : NULL, ranks, me);
  }
  else if (rank == 0) {
    fprintf (stderr, "usage: checkpoint run DIR STEPS [columns]\n"
             "       checkpoint restart DIR [STEP]\n");
  }
  MPI_Finalize ();
  return well ? 0 : 1;
}
