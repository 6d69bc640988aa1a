// A Bell pair: a Hadamard gate made from U, a CX, and both qubits measured.
OPENQASM 2.0;
qreg q[2];
creg c[2];
gate h a { U(pi/2, 0, pi) a; }

h q[0];
CX q[0], q[1];
measure q -> c;
