%%{
  machine answers;

  # A word that is known only where an extension is on.
  action extended { extensions }
  action done { words++; }

  main := ( ( 'get' | 'watch' when extended ) '\n' @done )*;
}%%
