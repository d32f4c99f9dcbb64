device module ports [6];
var printer [177566B]: char;
    punch [177556B]: char;
begin printer := 'A'; punch := 102C end ports.
