// gmsh ring_and_disc.geo -3 -format msh22 -o ring_and_disc.msh
// A copper ring with a square section, meshed by six turns of 60 degrees, and a disc over its hole. The disc's rim and the edge of one section are
// physical curves: the rim is free in the copper and bounds the disc, the edge bounds in the copper.
h = 10;
Point(1) = {2, 0, 0, h}; Point(2) = {3, 0, 0, h}; Point(3) = {3, 0, 1, h}; Point(4) = {2, 0, 1, h};
For i In {1:4}
  Line(i) = {i, i % 4 + 1};
EndFor
Curve Loop(1) = {1:4};
Plane Surface(1) = {1};
Transfinite Curve{1:4} = 2;
Transfinite Surface{1};
section = 1;
For i In {0:5}
  turn[] = Extrude {{0, 0, 1}, {0, 0, 0}, Pi / 3} { Surface{section}; Layers{1}; };
  section = turn[0];
  ring[i] = turn[1];
EndFor
rim[] = Curve In BoundingBox {-2.1, -2.1, 0.9, 2.1, 2.1, 1.1};
Point(1000) = {0, 0, 1, h};
Curve Loop(1000) = rim[];
Plane Surface(1000) = {1000};
Point{1000} In Surface{1000};
Physical Volume("copper ring", 1) = ring[];
Physical Surface("disc", 2) = {1000};
Physical Curve("rim of the disc", 3) = rim[];
Physical Curve("edge of a section", 4) = {1:4};
