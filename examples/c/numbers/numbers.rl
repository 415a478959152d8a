/* The sum of the numbers in lines, with a sign or without. */
#include <stdio.h>
#include <stdlib.h>

%%{
  machine numbers;
  alphtype unsigned char;

  action begin { value = 0; sign = 1; }
  action minus { sign = -1; }
  action digit { value = value * 10 + (fc - '0'); }
  action end { sum += sign * value; count++; }

  number = ( '+' | '-' @minus )? digit+ $digit;
  main := ( number >begin %end '\n' )* $err{ printf("no number in line %ld\n", count + 1); };
}%%

%% write data;

int main(int argc, char **argv)
{
  size_t block = argc > 1 ? (size_t)atoi(argv[1]) : 4096, n;
  unsigned char *buffer = malloc(block);
  const unsigned char *p, *pe, *eof = 0;
  long long value = 0, sum = 0;
  long count = 0;
  int sign = 1, cs;

  %% write init;
  do {
    n = fread(buffer, 1, block, stdin);
    p = buffer;
    pe = buffer + n;
    /* Where nothing more comes, `eof` stands at the end: then a last line without its newline ends in an error. */
    if (n == 0)
      eof = pe;
    %% write exec;
  } while (n > 0 && cs != numbers_error);
  free(buffer);
  printf("%ld numbers, their sum is %lld\n", count, sum);
  return cs >= numbers_first_final ? 0 : 1;
}
