// A GHZ state of four qubits by broadcast: `root` has one qubit and stays, `leaf` advances.
OPENQASM 2.0;
qreg root[1];
qreg leaf[3];
creg r[1];
creg l[3];
gate h a { U(pi/2, 0, pi) a; }

reset leaf;
h root;
CX root, leaf;
barrier root, leaf;
measure root -> r;
measure leaf -> l;
