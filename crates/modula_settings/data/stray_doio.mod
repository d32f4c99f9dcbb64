(* a fault: doio stands outside the text of a device process *)
device module clock [6];
var LKS [177546B]: bits;
process tick [100B];
begin LKS[6] := true; doio; LKS[6] := false end tick;
begin
  tick;
  doio
end clock.
