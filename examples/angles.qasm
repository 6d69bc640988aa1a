// Gates with parameters that call each other, and angles worked out exactly.
OPENQASM 2.0;
qreg q[2];
gate u3(theta, phi, lambda) a { U(theta, phi, lambda) a; }
gate u2(phi, lambda) a { u3(pi/2, phi, lambda) a; }
gate u1(lambda) a { u3(0, 0, lambda) a; }
gate rz(phi) a { u1(phi) a; }
gate cu3(theta, phi, lambda) c, t
{
    u1((lambda - phi)/2) t;
    CX c, t;
    u3(-theta/2, 0, -(phi + lambda)/2) t;
    CX c, t;
    u3(theta/2, phi, 0) t;
}

u2(0, pi) q;
rz(pi/4) q[0];
rz(-(1 + pi)/2) q[1];
cu3(pi/2, pi/3, -pi/6) q[0], q[1];
u1(cos(pi/3)*pi + 2^3/7) q[1];
