/* The program `vejgodat`: the library at the command line, for files. It is not proved; what is proved is behind the
 * calls of vejgodat.h. */
#include "cli.h"

#include <errno.h>
#include <signal.h>
#include <string.h>
#include <unistd.h>

static const command *const commands[] = {
  &command_check, &command_show, &command_table, &command_plan, &command_cut,
  &command_brick, &command_triangle, &command_columns, &command_rows,
  &command_near, &command_regions, &command_diff
};

#define COMMANDS (sizeof commands / sizeof commands[0])

/* A mapped file was cut short meanwhile, and its bytes are gone. */
static void
file_shrank (int signal)
{
  static const char   words[] =
    "vejgodat: a file became shorter while it was read\n";

  (void) signal;
  if (write (2, words, sizeof words - 1) < 0) {
    _exit (1);
  }
  _exit (1);
}

static void
write_all_help (void)
{
  size_t              i;

  printf ("Usage: vejgodat COMMAND ...\n\n"
          "Looks at the files of coarse meshes and makes some. Commands:\n");
  for (i = 0; i < COMMANDS; ++i) {
    printf ("  %-10s %s\n", commands[i]->name, commands[i]->summary);
  }
  printf ("\nvejgodat COMMAND --help says more. The file - is standard"
          " input.\nThe status is 0, 1 where something is refused, not sound,"
          " different or can't be\nread, and 2 for bad usage.\n");
}

static void
write_version (void)
{
  const uint32_t      is = vejgodat_version ();

  printf ("vejgodat %" PRIu32 ".%" PRIu32 ".%" PRIu32 "\n", is / 10000,
          is / 100 % 100, is % 100);
}

static int
run_command (const command * c, int count, char **words)
{
  arguments           a;

  memset (&a, 0, sizeof a);
  a.command = c;
  read_arguments (&a, count, words);
  if (a.value[OPT_HELP] != NULL) {
    write_help (c);
    return 0;
  }
  return c->run (&a);
}

int
main (int argc, char **argv)
{
  const command      *c = NULL;
  size_t              i;
  int                 status = 0;

  signal (SIGBUS, file_shrank);
  if (argc < 2) {
    bad_usage (NULL, "a command is missing", "vejgodat COMMAND");
  }
  for (i = 0; i < COMMANDS; ++i) {
    c = strcmp (argv[1], commands[i]->name) == 0 ? commands[i] : c;
  }
  if (c != NULL) {
    status = run_command (c, argc - 2, argv + 2);
  }
  else if (strcmp (argv[1], "--help") == 0 || strcmp (argv[1], "-h") == 0) {
    write_all_help ();
  }
  else if (strcmp (argv[1], "--version") == 0) {
    write_version ();
  }
  else {
    bad_usage (NULL, "no such command", argv[1]);
  }
  if (fflush (stdout) != 0 || ferror (stdout)) {
    return complain ("standard output", strerror (errno));
  }
  return status;
}
