// capital that is made with a share of 1/3
var k; varexo a;
parameters alpha;
alpha = 1/3;
model;
  k = a*k(-1)^alpha;
end;
