bool t(int64 a) { switch (a % 3) { case 1: case -2: a = uint(a) ^ 7; break; default: { Foo x(1, a), y; Foo@ z = x; } }
    if (a >>> 2 == 4) ; else if (true) return t(a / 2) ^^ t(a); else { int b; b++; }
    do ; while (~a >= (1 | 2 & 3)); x.y(1).z = @w; return false; }
;; Foo make() { }
Foo f(b), k();
