// The surface of a tube without its ends.
SetFactory("OpenCASCADE");
Circle(1) = {0, 0, 0, 1};
Extrude {0, 0, 3} { Curve{1}; }
Mesh.CharacteristicLengthMin = 10;
Mesh.CharacteristicLengthMax = 10;
Mesh.MinimumCirclePoints = 4;
Mesh.MinimumCurvePoints = 4;
