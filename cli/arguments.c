/* The command line: options, names and help. */
#include "cli.h"

#include <stdlib.h>
#include <string.h>

typedef struct
{
  const char         *name, *value, *words;
}
option;

static const option options[OPTIONS] = {
  {"help", NULL, "write this text and do nothing"},
  {"json", NULL, "answer in JSON"},
  {"table", "TABLE", "the offset table, bytes or text"},
  {"rank", "R", "the rank; else the one in the part's header"},
  {"as", "KIND",
   "take files for mesh, part, columns, message, area or table"},
  {"out", "FILE", "write there, not to standard output; -o FILE is the same"},
  {"tree", "K", "only the record of tree or ghost K"},
  {"record", "I", "only record I, from 0, trees before ghosts"},
  {"ranks", "P", "the number of ranks"},
  {"leaves", "FILE", "the number of leaves of each tree, in text"},
  {"weights", "FILE", "the weight of each rank, in text"},
  {"ranges", "FILE", "first tree and count of each rank, in text"},
  {"parts", "DIR", "a folder with the part of each rank"},
  {"text", NULL, "write text to the file"},
  {"svg", NULL, "draw the moves"},
  {"periodic", "AXES", "the periodic axes, of x, y and z"},
  {"point", "X,Y,Z", "trees whose box has this point"},
  {"below", "AXIS,LIMIT", "trees whose box reaches below a limit"},
  {"between", "AXIS,LOW,HIGH", "trees whose box meets a slab"}
};

void
bad_usage (const command * c, const char *words, const char *what)
{
  fflush (stdout);
  fprintf (stderr, "vejgodat%s%s: %s: %s\nTry vejgodat%s%s --help.\n",
           c == NULL ? "" : " ", c == NULL ? "" : c->name, what, words,
           c == NULL ? "" : " ", c == NULL ? "" : c->name);
  exit (2);
}

static int
takes (const command * c, int which)
{
  return which == OPT_HELP || (c->options & TAKES (which)) != 0;
}

void
write_help (const command * c)
{
  char                name[40];
  int                 i;

  printf ("Usage: vejgodat %s %s\n\n%s\nOptions:\n", c->name, c->usage,
          c->help);
  for (i = 0; i < OPTIONS; ++i) {
    if (takes (c, i)) {
      sprintf (name, "--%s%s%s", options[i].name,
               options[i].value == NULL ? "" : " ",
               options[i].value == NULL ? "" : options[i].value);
      printf ("  %-24s %s\n", name, options[i].words);
    }
  }
}

/* The option that a word names, be it `--name`, `--name=value`, -o or -h; value becomes what stands after the sign. */
static int
option_of (const arguments * a, const char *word, const char **value)
{
  const char         *name = word + 2, *sign = strchr (word, '=');
  const size_t        length =
    sign == NULL ? strlen (name) : (size_t) (sign - name);
  int                 i;

  *value = sign == NULL ? NULL : sign + 1;
  if (strcmp (word, "-o") == 0) {
    return OPT_OUT;
  }
  if (strcmp (word, "-h") == 0) {
    return OPT_HELP;
  }
  for (i = 0; i < OPTIONS && word[1] == '-'; ++i) {
    if (strlen (options[i].name) == length
        && strncmp (options[i].name, name, length) == 0) {
      return i;
    }
  }
  bad_usage (a->command, "no such option", word);
  return OPTIONS;
}

void
read_arguments (arguments * a, int count, char **words)
{
  const char         *value;
  int                 i, which, only_names = 0;

  a->names = words;
  a->count = 0;
  for (i = 0; i < count; ++i) {
    if (only_names || words[i][0] != '-' || words[i][1] == '\0') {
      words[a->count++] = words[i];
      continue;
    }
    if (strcmp (words[i], "--") == 0) {
      only_names = 1;
      continue;
    }
    which = option_of (a, words[i], &value);
    if (!takes (a->command, which)) {
      bad_usage (a->command, "no option of this command", words[i]);
    }
    if (options[which].value == NULL && value != NULL) {
      bad_usage (a->command, "takes no value", words[i]);
    }
    if (options[which].value != NULL && value == NULL) {
      if (i + 1 == count) {
        bad_usage (a->command, "a value is missing", words[i]);
      }
      value = words[++i];
    }
    a->value[which] = value == NULL ? "" : value;
  }
  if (a->value[OPT_HELP] == NULL
      && (a->count < a->command->least
          || (a->command->most >= 0 && a->count > a->command->most))) {
    bad_usage (a->command, "too few or too many", "arguments");
  }
}

uint32_t
number_of (const command * c, const char *text)
{
  uint64_t            number = 0;
  const char         *at;

  for (at = text; '0' <= *at && *at <= '9' && number <= UINT32_MAX; ++at) {
    number = 10 * number + (uint64_t) (*at - '0');
  }
  if (at == text || *at != '\0' || number > UINT32_MAX) {
    bad_usage (c, "no number from 0 to 4294967295", text);
  }
  return (uint32_t) number;
}

void
floats_of (const command * c, const char *text, float *list, int count)
{
  const char         *at = text;
  char               *after, words[64];
  int                 i;

  sprintf (words, "no list of %d numbers with commas between", count);
  for (i = 0; i < count; ++i) {
    list[i] = strtof (at, &after);
    if (after == at || *after != (i + 1 < count ? ',' : '\0')) {
      bad_usage (c, words, text);
    }
    at = after + 1;
  }
}
