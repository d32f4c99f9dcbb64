(* The second character comes while the printer is still at work on the first, and is lost. *)
device module m [4];
var TPB [177566B]: char;
begin TPB := 'A'; TPB := 'B' end m.
