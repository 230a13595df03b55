int f(A@ a, int i) { a[0] = b[i + 1][j]; cast<B>(a).d(e[g(i)[1]], cast<C>(null)); int x = c[i];
    if (cast<D>(x[y ? 1 : 2]) is null) return z[cast<E>(w).k]--; else for (int k = v[0]; u[k] < t[k]; s[k]++) ; return -r[0].q; }
