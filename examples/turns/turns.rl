%%{
  machine turns;
  action x { }
  main := 'ab' $x;
}%%
