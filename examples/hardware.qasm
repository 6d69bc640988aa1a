// Opaque gates: the instrument's own, handed on with their angles and qubits.
OPENQASM 2.0;
qreg q[2];
qreg r[2];
opaque zz(theta) a, b;
opaque cool a;
gate pulse(theta) a, b { cool a; zz(theta/2) a, b; zz(-theta/2) b, a; }

zz(pi/8) q[0], q[1];
cool r;
zz(-3*pi/4) q, r;
pulse(pi) q[0], r[1];
