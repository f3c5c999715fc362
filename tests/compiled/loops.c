/* Ten integer loops, as a compiler's user writes them. tests/compiled.sh compiles each and lets `align` read it. */
unsigned sum(const unsigned *a, long n) { unsigned s = 0; for (long i = 0; i < n; i++) s += a[i]; return s; }
int dot(const int *a, const int *b, int n) { int s = 0; for (int i = 0; i < n; i++) s += a[i] * b[i]; return s; }
void copy_bytes(char *d, const char *s, long n) { for (long i = 0; i < n; i++) d[i] = s[i]; }
void fill(int *a, int v, long n) { for (long i = 0; i < n; i++) a[i] = v; }
long find(const short *a, short v, long n) { for (long i = 0; i < n; i++) if (a[i] == v) return i; return -1; }
int least(const int *a, int n) { int m = a[0]; for (int i = 1; i < n; i++) if (a[i] < m) m = a[i]; return m; }
void widen(long *d, const signed char *s, int n) { for (int i = 0; i < n; i++) d[i] = s[i]; }
void add_arrays(unsigned short *d, const unsigned short *a, const unsigned short *b, unsigned n) { for (unsigned i = 0; i < n; i++) d[i] = a[i] + b[i]; }
unsigned long count_bits(unsigned long x) { unsigned long c = 0; while (x) { c += x & 1; x >>= 1; } return c; }
void reverse(int *a, long n) { for (long i = 0, j = n - 1; i < j; i++, j--) { int t = a[i]; a[i] = a[j]; a[j] = t; } }
