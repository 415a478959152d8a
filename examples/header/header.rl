/* The header lines of a message, up to an empty line. */
%%{
  machine header;
  include words 'words.rl';

  action name_begins { start = p; }
  action name_ends { on_name(start, p); }
  action value_begins { start = p; }
  action value_ends { on_value(start, p); }

  line = token >name_begins %name_ends ':' ' '* <: ( text? >value_begins %value_ends ) crlf;
  main := line* crlf @{ done = 1; };
}%%
