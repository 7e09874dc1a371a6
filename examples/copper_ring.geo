// gmsh copper_ring.geo -3 -format msh22 -o copper_ring.msh
// A copper ring with a square section, meshed by three turns of 120 degrees: 12 nodes, 18 tetrahedra, one free loop.
h = 10;
Point(1) = {2, 0, 0, h}; Point(2) = {3, 0, 0, h}; Point(3) = {3, 0, 1, h}; Point(4) = {2, 0, 1, h};
For i In {1:4}
  Line(i) = {i, i % 4 + 1};
EndFor
Curve Loop(1) = {1:4};
Plane Surface(1) = {1};
Transfinite Curve{1:4} = 2;
Transfinite Surface{1};
first[] = Extrude {{0, 0, 1}, {0, 0, 0}, 2 * Pi / 3} { Surface{1}; Layers{1}; };
second[] = Extrude {{0, 0, 1}, {0, 0, 0}, 2 * Pi / 3} { Surface{first[0]}; Layers{1}; };
third[] = Extrude {{0, 0, 1}, {0, 0, 0}, 2 * Pi / 3} { Surface{second[0]}; Layers{1}; };
Physical Volume("copper ring") = {first[1], second[1], third[1]};
