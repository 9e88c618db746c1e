// consumption, capital, technology
var c k; varexo a;
parameters alpha gamma delta;
alpha = 1/3; gamma = 2; delta = 0.025;
model;
  # gross = 1-delta+a(+1);
  [name='Euler'] c^(-gamma) = ((1/2)*c(+1)^(-gamma))*gross;
  k = (1-delta)*k(-1) + a - c;   % an accumulation rule
end;
