long g(long a, long b, long c) { return a - c - b; }
