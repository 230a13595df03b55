array<int> g; array<A@>@ h(2); class A { array<A@>@ n; array<bool> m(array<uint>@ p, A@ q)
    { array<A@> l(p[0], 1), k; l[k[0]] = q.n[2]; array<bool>(q).r = array<A@>(); for (array<int>@ i = j; i[0] < 3; i[0]++) ; return cast<A>(l[1]).m(p, null); } }
