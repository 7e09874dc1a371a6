// gmsh ring_in_air.geo -3 -format msh22 -o ring_in_air.msh
// A square ring in a box of air, each a physical volume; the air has one free loop, round the ring's limb.
SetFactory("OpenCASCADE");
Box(1) = {-4, -4, -4, 8, 8, 8};
Box(2) = {-2, -2, -1, 4, 4, 2};
Box(3) = {-1, -1, -1, 2, 2, 2};
BooleanDifference(4) = { Volume{2}; Delete; }{ Volume{3}; Delete; };
BooleanFragments{ Volume{1}; Delete; }{ Volume{4}; Delete; }
Physical Volume("ring") = {4};
Physical Volume("air") = {5};
Mesh.MeshSizeMin = 10;
Mesh.MeshSizeMax = 10;
