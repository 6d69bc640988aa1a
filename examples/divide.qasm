// Refused with 9: in the second call of `turn`, `part` divides by 1 - 1.
OPENQASM 2.0;
qreg q[2];
gate part(d) a { U(pi/d, 0, 0) a; }
gate turn(m, n) a { part(2) a; part(m - n) a; }

turn(3, 1) q[0];
turn(1, 1) q[1];
