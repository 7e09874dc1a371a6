// The plate with its hole filled: groups with names, and every triangle in two of them.
Include "plate.geo";
Plane Surface(2) = {2};
Physical Curve("wall") = {1:4};
Physical Surface("air, outside", 7) = {1};
Physical Surface("coil $Nodes") = {2};
Physical Surface("all") = {1, 2};
