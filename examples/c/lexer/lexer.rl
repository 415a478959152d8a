/* The tokens of a small language. A token may begin in one block of the input and end in a later one: the buffer keeps it. */
#include <stdio.h>
#include <stdlib.h>
#include <string.h>

static void token(const char *kind, const unsigned char *from, const unsigned char *to)
{
  printf("%s %.*s\n", kind, (int)(to - from), (const char *)from);
}

%%{
  machine lexer;
  alphtype unsigned char;

  action keyword { token("keyword", ts, te); }
  action name { token("name", ts, te); }
  action number { token("number", ts, te); }
  action sign { token("sign", ts, te); }

  main := |*
    ( 'if' | 'else' | 'while' | 'return' ) => keyword;
    [A-Za-z_] [A-Za-z_0-9]* => name;
    digit+ ( '.' digit+ )? => number;
    ( [+\-*/=<>(){};] | '==' | '<=' | '>=' ) => sign;
    '//' [^\n]*;
    space;
  *|;
}%%

%% write data;

int main(int argc, char **argv)
{
  size_t block = argc > 1 ? (size_t)atoi(argv[1]) : 4096, size = 64, kept = 0, n;
  unsigned char *buffer = malloc(size), *moved;
  const unsigned char *p, *pe, *eof = 0, *ts, *te;
  int cs, act;

  %% write init;
  do {
    if (kept + block > size) {
      size = kept + block;
      moved = malloc(size);
      memcpy(moved, ts, kept);
    } else {
      moved = buffer;
      memmove(moved, kept > 0 ? ts : moved, kept);
    }
    /* Only where a token is open do `ts` and, where a match is kept, `te` point into the buffer. */
    if (kept > 0) {
      if (te != 0)
        te = moved + (te - ts);
      ts = moved;
    }
    if (moved != buffer) {
      free(buffer);
      buffer = moved;
    }
    n = fread(buffer + kept, 1, block, stdin);
    p = buffer + kept;
    pe = p + n;
    if (n == 0)
      eof = pe;
    %% write exec;
    /* Behind a token `ts` stays where it was: whether one is open is told by the state. */
    kept = _lexer_state_kinds[cs] >= 2 ? (size_t)(pe - ts) : 0;
  } while (n > 0 && cs != lexer_error);
  if (cs < lexer_first_final)
    printf("no token at %.*s\n", (int)kept, (const char *)ts);
  free(buffer);
  return cs >= lexer_first_final ? 0 : 1;
}
