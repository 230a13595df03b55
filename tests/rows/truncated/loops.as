int n = 0x10; // the first
int f(int k)
{
    for (int i = 0, j = 9; i < k and not (j == 3); i++, --j) { n += i * j - 1; if (n > 7) continue; else break; }
    while (n !is null) do { n <<= 1; } while (n < 100 || false);
    for (;;) { return n; }
}
