@#define countries = ["home", "abroad"]
@#for c in countries
var y_@{c};
@#endfor
model;
@#for c in countries
y_@{c} = 0.5*y_@{c}(-1);
@#endfor
end;
