// The number of bits that are 1 in n words.
unsigned f(const unsigned *words, unsigned long n) {
  unsigned bits = 0;
  for (unsigned long i = 0; i < n; i++)
    for (unsigned word = words[i]; word != 0; word >>= 1)
      bits += word & 1;
  return bits;
}
