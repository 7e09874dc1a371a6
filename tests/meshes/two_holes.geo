// gmsh two_holes.geo -2 -format msh22 -o two_holes.msh
// A plate with two square holes, whose edges are physical curves: two free loops.
h = 10;
Point(1) = {0, 0, 0, h}; Point(2) = {7, 0, 0, h}; Point(3) = {7, 3, 0, h}; Point(4) = {0, 3, 0, h};
Point(5) = {1, 1, 0, h}; Point(6) = {2, 1, 0, h}; Point(7) = {2, 2, 0, h}; Point(8) = {1, 2, 0, h};
Point(9) = {5, 1, 0, h}; Point(10) = {6, 1, 0, h}; Point(11) = {6, 2, 0, h}; Point(12) = {5, 2, 0, h};
For k In {0:2}
  For i In {1:4}
    Line(4 * k + i) = {4 * k + i, 4 * k + i % 4 + 1};
  EndFor
  Curve Loop(k + 1) = {4 * k + 1:4 * k + 4};
EndFor
Plane Surface(1) = {1, 2, 3};
Physical Surface("plate", 1) = {1};
Physical Curve("left hole", 2) = {5:8};
Physical Curve("right hole", 3) = {9:12};
Physical Curve("rim", 4) = {1:4};
Physical Curve("side", 5) = {1};
