/* Fields, each behind its length: digits, a colon, as many bytes as they say, a comma. */
#include <stdio.h>
#include <stdlib.h>

%%{
  machine fields;
  alphtype unsigned char;

  action begin { left = 0; }
  action digit { left = left * 10 + (fc - '0'); }
  action open { putchar('"'); if (left > 0) { fcall body; } }
  action byte { putchar(fc); if (--left == 0) { fret; } }
  action close { puts("\""); }

  # The call of `body` comes back to where the comma is due.
  body := any* $byte;
  main := ( digit{1,6} >begin $digit ':' @open ',' @close )*;
}%%

%% write data;

int main(int argc, char **argv)
{
  size_t block = argc > 1 ? (size_t)atoi(argv[1]) : 4096, n;
  unsigned char *buffer = malloc(block);
  const unsigned char *p, *pe;
  long left = 0;
  int cs, top, stack[1];

  %% write init;
  while (cs != fields_error && (n = fread(buffer, 1, block, stdin)) > 0) {
    p = buffer;
    pe = buffer + n;
    %% write exec;
  }
  free(buffer);
  puts(cs >= fields_first_final ? "all fields are whole" : "a field is broken");
  return cs >= fields_first_final ? 0 : 1;
}
