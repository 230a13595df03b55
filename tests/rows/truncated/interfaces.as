interface I { void m(array<A@>@ p, int i); array<bool>@ n(); int64 k(I@ o); } interface J { }
class A : I, J { array<A@>@ all; array<int> v(3), w; I@ other = cast<I>(g[0]);
    void m(array<A@>@ p, int i) { v[i] = w[v[0]++]; cast<I>(p[i >> 1]).m(array<A@>(), -v[i]); }
    array<bool>@ n() { return array<bool>(v.length()); } int64 k(I@ o) { return cast<A>(o) !is null ? v[1] : w[0]; } }
array<I@> g(2); uint f(array<int>@ a) { for (array<int> b = a; a[0] <= b[1]; b[0] -= a[cast<A>(g[0]).v[1]])
    if (b[2] == 0) return a[0]; else array<uint>(1)[0] = b[a.length() - 1]; return array<uint>(1)[cast<A>(g[0]).w[0]]; }
