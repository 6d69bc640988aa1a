// Teleportation of the state of q[0] to q[2]; what is measured decides the corrections.
OPENQASM 2.0;
qreg q[3];
creg m0[1];
creg m1[1];
creg out[1];
gate h a { U(pi/2, 0, pi) a; }
gate x a { U(pi, 0, pi) a; }
gate z a { U(0, 0, pi) a; }

U(pi/3, pi/4, 0) q[0];
h q[1];
CX q[1], q[2];
barrier q;
CX q[0], q[1];
h q[0];
measure q[0] -> m0[0];
measure q[1] -> m1[0];
if (m0 == 1) z q[2];
if (m1 == 1) x q[2];
measure q[2] -> out[0];
