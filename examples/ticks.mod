(* three processes wait for a tick of the line clock, and each prints an x *)
module ticks;

  device module clock [6];
    define tick;
    var LKS [177546B]: bits; tick: signal;
    process driver [100B];
    begin
      LKS[6] := true;
      doio;
      LKS[6] := false;
      while awaited(tick) do send(tick) end
    end driver;
  begin driver end clock;

  device module console [4];
    define put;
    var TPS [177564B]: bits; TPB [177566B]: char;
    procedure put(c: char);
    begin
      while not TPS[7] do end;
      TPB := c
    end put;
  end console;

  process p;
  begin wait(tick); put('x') end p;

begin p; p; p end ticks.
