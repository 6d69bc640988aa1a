// Document 01's case K1: a gate with a parameter, called on a whole register.
OPENQASM 2.0;
qreg q[2];
gate g(t) a { U(t, 0, pi) a; }

g(pi/2) q;
CX q[0], q[1];
