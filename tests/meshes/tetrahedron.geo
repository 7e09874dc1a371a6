// One tetrahedron.
h = 10;
Point(1) = {0, 0, 0, h}; Point(2) = {1, 0, 0, h}; Point(3) = {0, 1, 0, h}; Point(4) = {0, 0, 1, h};
Line(1) = {1, 2}; Line(2) = {2, 3}; Line(3) = {3, 1}; Line(4) = {1, 4}; Line(5) = {2, 4}; Line(6) = {3, 4};
Curve Loop(1) = {1, 2, 3}; Curve Loop(2) = {1, 5, -4}; Curve Loop(3) = {2, 6, -5}; Curve Loop(4) = {3, 4, -6};
For i In {1:4}
  Plane Surface(i) = {i};
EndFor
Surface Loop(1) = {1:4};
Volume(1) = {1};
