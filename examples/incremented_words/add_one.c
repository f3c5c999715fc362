void f(unsigned *to, const unsigned *from, unsigned long count) {
    for (unsigned long i = 0; i < count; i++) to[i] = from[i] + 1;
}
