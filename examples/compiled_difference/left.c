long f(long a, long b, long c) { return a - b - c; }
