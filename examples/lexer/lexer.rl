/* The tokens of a small language. */
%%{
  machine lexer;

  action keyword { on_token(KEYWORD, ts, te); }
  action name { on_token(NAME, ts, te); }
  action number { on_token(NUMBER, ts, te); }
  action string { on_token(STRING, ts, te); }
  action sign { on_token(SIGN, ts, te); }
  action unclosed { on_fault("no end of this string", ts, te); }
  action line { lines++; }
  action comment_begins { fcall comment; }
  action comment_ends { fret; }

  letter = [A-Za-z_];
  inside = [^"\\\n] | '\\' [^\n];

  # A comment may be longer than a token may, and has lines to count: each of its characters is a token.
  comment := |*
    '*/' => comment_ends;
    '\n' => line;
    any;
  *|;

  main := |*
    # Keywords stand before names: of two matches of one length the first listed comes.
    ( 'if' | 'else' | 'while' | 'return' ) => keyword;
    letter ( letter | digit )* => name;
    digit+ ( '.' digit+ )? => number;
    '"' inside* '"' => string;
    # With a token for what has no end, nothing is read twice in search of the end.
    '"' inside* '\\'? => unclosed;
    ( [+\-*/=<>(){}.;] | '==' | '<=' | '>=' ) => sign;
    '//' [^\n]*;
    '/*' => comment_begins;
    '\n' => line;
    [ \t];
  *|;
}%%
