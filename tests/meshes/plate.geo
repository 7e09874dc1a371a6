// A square plate with a square hole, as coarse as can be.
h = 10;
Point(1) = {0, 0, 0, h}; Point(2) = {3, 0, 0, h}; Point(3) = {3, 3, 0, h}; Point(4) = {0, 3, 0, h};
Point(5) = {1, 1, 0, h}; Point(6) = {2, 1, 0, h}; Point(7) = {2, 2, 0, h}; Point(8) = {1, 2, 0, h};
For i In {0:3}
  Line(1 + i) = {1 + i, 1 + (i + 1) % 4};
  Line(5 + i) = {5 + i, 5 + (i + 1) % 4};
EndFor
Curve Loop(1) = {1:4};
Curve Loop(2) = {5:8};
Plane Surface(1) = {1, 2};
