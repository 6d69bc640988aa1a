// Refused with 12 (document 01's case K3): in the second round the CX would be q[1], q[1].
OPENQASM 2.0;
qreg q[3];

CX q[1], q;
