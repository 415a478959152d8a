%%{
  machine one;
  action x { }
  main := 'ab' $x;
  write data;
}%%
