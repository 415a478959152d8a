Host text of an included file is dropped.
%%{
  machine words;
  crlf = '\r\n';
  token = [A-Za-z0-9_\-]+;
  text = [^\r\n ] [^\r\n]*;
}%%
