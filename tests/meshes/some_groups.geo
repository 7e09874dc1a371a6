// The plate with its hole filled, and groups that leave out the plate: its triangles and two of its nodes are saved only where all is.
Include "plate.geo";
Plane Surface(2) = {2};
Physical Surface("coil") = {2};
Physical Curve("wall") = {1};
