/* vejgodat check: whether files are sound, and where they fail. */
#include "cli.h"

static void
write_line (const input * in, const verdict * v, const char *words)
{
  printf ("%s: ", in->name);
  if (v->kind != KINDS) {
    printf ("%s%s%s%s: ", kind_names[v->kind],
            v->by[0] == 'h' ? " by header and length" : "",
            v->text ? ", as text" : "",
            v->own ? ", table made from its header" : "");
  }
  printf ("%s\n", words);
}

static void
write_object (writer * w, const input * in, const verdict * v,
              const char *words)
{
  begin (w, NULL, '{');
  put_text (w, "file", in->name);
  if (v->kind == KINDS) {
    put_null (w, "kind");
  }
  else {
    put_text (w, "kind", kind_names[v->kind]);
    put_text (w, "kind_by", v->by);
  }
  if (v->kind == PART || v->kind == COLUMNS) {
    put_text (w, "table", v->own ? "header" : "given");
  }
  put_flag (w, "sound", is_sound (v));
  put_text (w, "words", words);
  if (v->kind != KINDS && v->fault.fault != VEJGODAT_OK) {
    put_number (w, "fault", v->fault.kind);
    if (v->header.field != VEJGODAT_HEADER_NONE) {
      put_number (w, "header", v->header.field);
      put_number (w, "found", v->header.found);
      put_number (w, "due", v->header.due);
    }
    put_number (w, "at", v->fault.at);
    if (vejgodat_fault_has_face (v->fault.kind)) {
      put_number (w, "face", v->fault.face);
    }
  }
  end (w, '}');
}

static int
check_one (const arguments * a, writer * w, const char *name,
           const input * table, progress * p)
{
  input               in;
  verdict             v;
  char                words[200];
  const char         *unread = open_input (&in, name);

  if (unread != NULL) {
    progress_end (p);
    if (w->json) {
      begin (w, NULL, '{');
      put_text (w, "file", in.name);
      put_null (w, "kind");
      put_flag (w, "sound", 0);
      put_text (w, "words", unread);
      end (w, '}');
    }
    return complain (in.name, unread);
  }
  v = judge (a, &in, table);
  progress_end (p);
  write_verdict (&v, words, sizeof words);
  if (w->json) {
    write_object (w, &in, &v, words);
  }
  else {
    write_line (&in, &v, words);
  }
  close_input (&in);
  return !is_sound (&v);
}

static int
run (const arguments * a)
{
  writer              w = { a->value[OPT_JSON] != NULL, 0, 1 };
  progress            p = progress_of ("checking file");
  input               table;
  const input        *given;
  int                 i, status = 0;

  if (table_given (a, &table, &given) != 0) {
    return 1;
  }
  kind_given (a);
  if (w.json) {
    begin (&w, NULL, '[');
  }
  for (i = 0; i < a->count; ++i) {
    progress_at (&p, (uint64_t) i + 1, (uint64_t) a->count);
    status |= check_one (a, &w, a->names[i], given, &p);
  }
  if (w.json) {
    end (&w, ']');
    finish (&w);
  }
  close_input (&table);
  return status;
}

const command       command_check = {
  "check", "FILE... [--table TABLE [--rank R]] [--as KIND] [--json]",
  "say whether files are sound, and where they fail",
  "Takes each file for the first of mesh, part, column file, message, area and\n"
    "table that it is sound as, and says which. A file that is sound as none is\n"
    "taken for what header and length say; --as KIND decides for all files.\n"
    "A part is checked with the table given, or else with one made from its own\n"
    "header, which has the part's range and gives all other trees to the ranks\n"
    "beside it. The status is 0 only if all files are sound.\n",
  TAKES (OPT_JSON) | TAKES (OPT_TABLE) | TAKES (OPT_RANK) | TAKES (OPT_AS),
  1, -1, run
};
