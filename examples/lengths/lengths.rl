%%{
  machine lengths;

  # A digit says how many bytes the field behind it has.
  action length { left = fc - '0'; fcall field; }
  action byte { if ( --left == 0 ) { fret; } }

  field := any* $byte;
  main := ( [1-9] @length )*;
}%%
