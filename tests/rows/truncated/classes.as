class P { int v = 1, w; Q@ q; P(int k, Q@ o) { v = v + k; @q = o; } int m() { return this.v; } }
class Q { uint64 z; Q r() { return Q(); } }
P@ g = P(5, null); P h(1, g.q);
int f(P@ p, bool b) { return b ? p.m() : -g.v; }
