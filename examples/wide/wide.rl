%%{
  machine wide;
  alphtype short;
  action x { }
  main := 0x100 $x;
}%%
