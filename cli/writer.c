/* Answers as lines `name: value`, or as JSON. */
#include "cli.h"

#include <string.h>

/* How many bytes at `text` are one character of UTF-8; 0 where none is. */
static size_t
character (const unsigned char *text)
{
  const unsigned char c = text[0];
  const size_t        more =
    c < 0x80 ? 0 : 0xc2 <= c && c < 0xe0 ? 1 : 0xe0 <= c && c < 0xf0 ? 2
    : 0xf0 <= c && c < 0xf5 ? 3 : 4;
  size_t              i;

  for (i = 1; i <= more; ++i) {
    if (more == 4 || (text[i] & 0xc0) != 0x80) {
      return 0;
    }
  }
  /* longer than need be, a surrogate, or above the last character */
  if ((c == 0xe0 && text[1] < 0xa0) || (c == 0xed && text[1] >= 0xa0)
      || (c == 0xf0 && text[1] < 0x90) || (c == 0xf4 && text[1] >= 0x90)) {
    return 0;
  }
  return more + 1;
}

/* A string of JSON. A byte that isn't UTF-8 becomes a lone surrogate, as in Python's file names. */
static void
put_string (const char *string)
{
  const unsigned char *text = (const unsigned char *) string;
  size_t              wide;

  putchar ('"');
  for (; *text != '\0'; text += wide > 0 ? wide : 1) {
    wide = character (text);
    if (wide == 0) {
      printf ("\\udc%02x", *text);
    }
    else if (*text == '"' || *text == '\\') {
      printf ("\\%c", *text);
    }
    else if (*text < 0x20 || *text == 0x7f) {
      printf ("\\u%04x", *text);
    }
    else {
      fwrite (text, 1, wide, stdout);
    }
  }
  putchar ('"');
}

/* What stands before a value. */
static void
lead (writer * w, const char *name)
{
  const char         *c;
  int                 i;

  if (w->json) {
    if (!w->fresh) {
      printf (", ");
    }
    if (name != NULL) {
      put_string (name);
      printf (": ");
    }
  }
  else if (name != NULL) {
    for (i = 1; i < w->depth; ++i) {
      printf ("  ");
    }
    for (c = name; *c != '\0'; ++c) {
      putchar (*c == '_' ? ' ' : *c);
    }
    putchar (':');
  }
  w->fresh = 0;
}

void
begin (writer * w, const char *name, char bracket)
{
  lead (w, name);
  if (w->json) {
    putchar (bracket);
  }
  else if (name != NULL) {
    putchar ('\n');
  }
  ++w->depth;
  w->fresh = 1;
}

void
end (writer * w, char bracket)
{
  if (w->json) {
    putchar (bracket);
  }
  --w->depth;
  w->fresh = 0;
}

void
put_number (writer * w, const char *name, uint64_t number)
{
  lead (w, name);
  printf (w->json ? "%" PRIu64 : " %" PRIu64 "\n", number);
}

void
put_text (writer * w, const char *name, const char *text)
{
  lead (w, name);
  if (w->json) {
    put_string (text);
  }
  else {
    printf (" %s\n", text);
  }
}

void
put_flag (writer * w, const char *name, int flag)
{
  lead (w, name);
  if (w->json) {
    printf (flag ? "true" : "false");
  }
  else {
    printf (flag ? " yes\n" : " no\n");
  }
}

void
put_null (writer * w, const char *name)
{
  lead (w, name);
  printf (w->json ? "null" : " none\n");
}

void
put_numbers (writer * w, const char *name, const uint32_t * list,
             size_t count)
{
  size_t              i;

  lead (w, name);
  printf (w->json ? "[" : count == 0 ? " none" : " ");
  for (i = 0; i < count; ++i) {
    printf ("%s%" PRIu32, i == 0 ? "" : ", ", list[i]);
  }
  printf (w->json ? "]" : "\n");
}

void
finish (writer * w)
{
  if (w->json) {
    putchar ('\n');
  }
}
