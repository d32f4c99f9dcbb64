device module m [4];
var TPB [177566B]: char;
begin TPB := 'A' end m.
