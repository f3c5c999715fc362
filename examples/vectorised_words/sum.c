// The sum of n words, modulo 2^32.
unsigned f(const unsigned *words, unsigned long n) {
  unsigned sum = 0;
  for (unsigned long i = 0; i < n; i++)
    sum += words[i];
  return sum;
}
