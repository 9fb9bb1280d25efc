/* Copies standard input to standard output and ends with 0 if it is one value of JSON and a line end. */
#include <ctype.h>
#include <stdio.h>
#include <string.h>

static char         text[1 << 20];
static const char  *at = text;

static int          value (void);

static int
take (char c)
{
  if (*at != c) {
    return 0;
  }
  ++at;
  return 1;
}

static int
word (const char *of)
{
  const size_t        length = strlen (of);

  if (strncmp (at, of, length) != 0) {
    return 0;
  }
  at += length;
  return 1;
}

static int
string (void)
{
  int                 i;

  if (!take ('"')) {
    return 0;
  }
  while (*at != '"') {
    if ((unsigned char) *at < 0x20) {
      return 0;
    }
    if (take ('\\')) {
      if (*at == 'u') {
        for (i = 1; i <= 4; ++i) {
          if (!isxdigit ((unsigned char) at[i])) {
            return 0;
          }
        }
        at += 4;
      }
      else if (*at == '\0' || strchr ("\"\\/bfnrt", *at) == NULL) {
        return 0;
      }
    }
    ++at;
  }
  return take ('"');
}

static int
number (void)
{
  take ('-');
  if (!isdigit ((unsigned char) *at)
      || (*at == '0' && isdigit ((unsigned char) at[1]))) {
    return 0;
  }
  while (isdigit ((unsigned char) *at)) {
    ++at;
  }
  return 1;
}

static void
blanks (void)
{
  while (*at == ' ') {
    ++at;
  }
}

static int
members (char last, int named)
{
  if (take (last)) {
    return 1;
  }
  do {
    blanks ();
    if (named && !(string () && take (':'))) {
      return 0;
    }
    blanks ();
    if (!value ()) {
      return 0;
    }
  } while (take (','));
  return take (last);
}

static int
value (void)
{
  return take ('{') ? members ('}', 1) : take ('[') ? members (']', 0)
    : *at == '"' ? string () : word ("true") || word ("false")
    || word ("null") || number ();
}

int
main (void)
{
  const size_t        length = fread (text, 1, sizeof text - 1, stdin);
  int                 sound;

  fwrite (text, 1, length, stdout);
  sound = value () && take ('\n') && *at == '\0'
    && at == text + length;
  if (!sound) {
    printf ("this is no JSON\n");
  }
  return !sound;
}
