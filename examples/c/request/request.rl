/* A request line and its header lines, up to an empty line. */
#include <stdio.h>
#include <stdlib.h>

/* The part that is being read: what stands in an earlier block is gone when the next one is read. */
static char text[64];
static size_t length;

static void add(int byte)
{
  if (length < sizeof text)
    text[length++] = (char)byte;
}

static void print(const char *what)
{
  printf("%s %.*s\n", what, (int)length, text);
  length = 0;
}

%%{
  machine request;

  # The characters of the input are bytes from 0 to 255, so `p` is a pointer to unsigned char.
  alphtype unsigned char;

  action add { add(fc); }
  action method { print("method"); }
  action target { print("target"); }
  action version { print("version"); }
  action name { print("name"); }
  action value { print("value"); }
  action done { fbreak; }

  crlf = '\r\n';
  word = graph+ $add;
  name = [A-Za-z0-9_\-]+ $add;
  value = ( [^\r\n ] [^\r\n]* )? $add;

  line = word %method ' ' word %target ' ' word %version crlf;
  header = name %name ':' ' '* <: value %value crlf;
  main := line header* crlf @done;
}%%

%% write data;

int main(int argc, char **argv)
{
  size_t block = argc > 1 ? (size_t)atoi(argv[1]) : 4096, n;
  unsigned char *buffer = malloc(block);
  const unsigned char *p, *pe;
  int cs;

  %% write init;
  while (cs < request_first_final && cs != request_error && (n = fread(buffer, 1, block, stdin)) > 0) {
    p = buffer;
    pe = buffer + n;
    %% write exec;
  }
  free(buffer);
  puts(cs >= request_first_final ? "a request" : "no request");
  return cs >= request_first_final ? 0 : 1;
}
