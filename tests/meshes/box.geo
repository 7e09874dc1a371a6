// A box, as coarse as Gmsh meshes it.
SetFactory("OpenCASCADE");
Box(1) = {0, 0, 0, 1, 1, 1};
Mesh.CharacteristicLengthMin = 10;
Mesh.CharacteristicLengthMax = 10;
