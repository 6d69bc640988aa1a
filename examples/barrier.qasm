// A barrier holds each qubit once and in rising order, however its arguments are written.
OPENQASM 2.0;
qreg a[2];
qreg b[3];
gate hold x, y, z { barrier z, x, y, x; }

barrier b, a;
barrier b[2], a[0], b;
hold b[2], a[1], b[0];
