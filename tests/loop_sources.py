"""Makes loops over arrays of integers in C, from templates. The types of elements and lengths and `restrict` vary."""
import itertools

TYPES = ["int8_t", "int16_t", "int32_t", "int64_t", "uint8_t", "uint16_t", "uint32_t", "uint64_t"]
LENGTHS = ["size_t", "unsigned", "int", "long"]
HEAD = "#include <stdint.h>\n#include <stddef.h>\n\n"

# T is the element type, W the type of twice its width, L the type of the length, R restrict or nothing
TEMPLATES = {
    "sum": "T f(const T *a, L n) { T s = 0; for (L i = 0; i < n; i++) s += a[i]; return s; }",
    "wide_sum": "W f(const T *a, L n) { W s = 0; for (L i = 0; i < n; i++) s += a[i]; return s; }",
    "ended_sum": "T f(const T *a, const T *e) { T s = 0; while (a != e) s += *a++; return s; }",
    "sum_of_256": "T f(const T *a) { T s = 0; for (int i = 0; i < 256; i++) s += a[i]; return s; }",
    "dot": "T f(const T *a, const T *b, L n) { T s = 0; for (L i = 0; i < n; i++) s += a[i] * b[i]; return s; }",
    "wide_dot": "W f(const T *a, const T *b, L n) { W s = 0; for (L i = 0; i < n; i++) s += (W)a[i] * b[i];"
                " return s; }",
    "copy": "void f(T *R a, const T *R b, L n) { for (L i = 0; i < n; i++) a[i] = b[i]; }",
    "fill": "void f(T *a, T x, L n) { for (L i = 0; i < n; i++) a[i] = x; }",
    "count_up": "void f(T *a, L n) { for (L i = 0; i < n; i++) a[i] = (T)i; }",
    "find": "L f(const T *a, T x, L n) { for (L i = 0; i < n; i++) if (a[i] == x) return i; return n; }",
    "find_last": "L f(const T *a, T x, L n) { while (n > 0) if (a[--n] == x) return n; return 0; }",
    "count": "L f(const T *a, T x, L n) { L k = 0; for (L i = 0; i < n; i++) k += a[i] == x; return k; }",
    "count_below": "L f(const T *a, T x, L n) { L k = 0; for (L i = 0; i < n; i++) if (a[i] < x) k++; return k; }",
    "least": "T f(const T *a, L n) { T m = a[0]; for (L i = 1; i < n; i++) if (a[i] < m) m = a[i]; return m; }",
    "greatest": "T f(const T *a, L n) { T m = a[0]; for (L i = 1; i < n; i++) m = a[i] > m ? a[i] : m; return m; }",
    "place_of_least": "L f(const T *a, L n) { L k = 0; for (L i = 1; i < n; i++) if (a[i] < a[k]) k = i; return k; }",
    "widen": "void f(W *R a, const T *R b, L n) { for (L i = 0; i < n; i++) a[i] = b[i]; }",
    "narrow": "void f(T *R a, const W *R b, L n) { for (L i = 0; i < n; i++) a[i] = (T)b[i]; }",
    "every_second": "T f(const T *a, L n) { T s = 0; for (L i = 0; i < n; i += 2) s += a[i]; return s; }",
    "every_third": "T f(const T *a, L n) { T s = 0; for (L i = 0; i + 2 < n; i += 3) s ^= a[i]; return s; }",
    "stride": "T f(const T *a, L n, L k) { T s = 0; for (L i = 0; i < n; i++) s += a[i * k]; return s; }",
    "reverse_copy": "void f(T *R a, const T *R b, L n) { for (L i = 0; i < n; i++) a[i] = b[n - 1 - i]; }",
    "reverse": "void f(T *a, L n)"
               " { for (L i = 0, j = n; i + 1 < j; i++) { j--; T t = a[i]; a[i] = a[j]; a[j] = t; } }",
    "backward_sum": "T f(const T *a, L n) { T s = 0; for (L i = n; i > 0; i--) s += a[i - 1]; return s; }",
    "add": "void f(T *R c, const T *R a, const T *R b, L n) { for (L i = 0; i < n; i++) c[i] = a[i] + b[i]; }",
    "subtract_in_place": "void f(T *R a, const T *R b, L n) { for (L i = 0; i < n; i++) a[i] -= b[i]; }",
    "scaled_add": "void f(T *R a, const T *R b, T k, L n) { for (L i = 0; i < n; i++) a[i] += k * b[i]; }",
    "times_ten": "void f(T *a, L n) { for (L i = 0; i < n; i++) a[i] *= 10; }",
    "increment": "void f(T *a, L n) { for (L i = 0; i < n; i++) a[i]++; }",
    "negate": "void f(T *a, L n) { for (L i = 0; i < n; i++) a[i] = -a[i]; }",
    "complement": "void f(T *a, L n) { for (L i = 0; i < n; i++) a[i] = ~a[i]; }",
    "shift": "void f(T *a, L n) { for (L i = 0; i < n; i++) a[i] >>= 3; }",
    "mask": "void f(T *a, T m, L n) { for (L i = 0; i < n; i++) a[i] = (a[i] & m) | 1; }",
    "xor_all": "T f(const T *a, L n) { T s = 0; for (L i = 0; i < n; i++) s ^= a[i]; return s; }",
    "or_all": "T f(const T *a, L n) { T s = 0; for (L i = 0; i < n; i++) s |= a[i]; return s; }",
    "absolute": "void f(T *a, L n) { for (L i = 0; i < n; i++) a[i] = a[i] < 0 ? -a[i] : a[i]; }",
    "distance": "W f(const T *a, const T *b, L n) { W s = 0; for (L i = 0; i < n; i++)"
                " s += a[i] < b[i] ? b[i] - a[i] : a[i] - b[i]; return s; }",
    "clamp": "void f(T *a, T lo, T hi, L n)"
             " { for (L i = 0; i < n; i++) a[i] = a[i] < lo ? lo : a[i] > hi ? hi : a[i]; }",
    "lesser_of_two": "void f(T *R c, const T *R a, const T *R b, L n)"
                     " { for (L i = 0; i < n; i++) c[i] = a[i] < b[i] ? a[i] : b[i]; }",
    "average": "void f(T *R c, const T *R a, const T *R b, L n)"
               " { for (L i = 0; i < n; i++) c[i] = ((W)a[i] + b[i] + 1) >> 1; }",
    "saturate": "void f(T *R c, const T *R a, const T *R b, L n)"
                " { for (L i = 0; i < n; i++) { T s = a[i] + b[i]; c[i] = s < a[i] ? (T)~(T)0 : s; } }",
    "prefix_sums": "void f(T *a, L n) { T s = 0; for (L i = 0; i < n; i++) { s += a[i]; a[i] = s; } }",
    "equal": "int f(const T *a, const T *b, L n) { for (L i = 0; i < n; i++) if (a[i] != b[i]) return 0; return 1; }",
    "differences": "L f(const T *a, const T *b, L n) { L k = 0; for (L i = 0; i < n; i++) k += a[i] != b[i];"
                   " return k; }",
    "sorted": "int f(const T *a, L n) { for (L i = 1; i < n; i++) if (a[i] < a[i - 1]) return 0; return 1; }",
    "neighbours": "void f(T *R b, const T *R a, L n)"
                  " { for (L i = 1; i + 1 < n; i++) b[i] = a[i - 1] + a[i] + a[i + 1]; }",
    "hash": "T f(const T *a, L n) { T h = 7; for (L i = 0; i < n; i++) h = h * 31 + a[i]; return h; }",
    "sum_of_positive": "T f(const T *a, L n) { T s = 0; for (L i = 0; i < n; i++) if (a[i] > 0) s += a[i];"
                       " return s; }",
    "chosen": "void f(T *R c, const T *R a, const T *R b, L n)"
              " { for (L i = 0; i < n; i++) c[i] = a[i] ? a[i] : b[i]; }",
    "pairs": "void f(T *R b, const T *R a, L n) { for (L i = 0; i < n; i++) b[i] = a[2 * i] + a[2 * i + 1]; }",
    "swap_arrays": "void f(T *R a, T *R b, L n) { for (L i = 0; i < n; i++) { T t = a[i]; a[i] = b[i]; b[i] = t; } }",
    "length": "size_t f(const T *a) { size_t k = 0; while (a[k]) k++; return k; }",
    "bits": "int f(const T *a, L n) { int k = 0; for (L i = 0; i < n; i++) for (T x = a[i]; x; x &= x - 1)"
            " k++; return k; }",
    "sums_of_rows": "void f(T *R s, const T *R a, L n) { for (L i = 0; i < n; i++) { T t = 0;"
                    " for (int j = 0; j < 16; j++) t += a[16 * i + j]; s[i] = t; } }",
    "remainders": "void f(T *a, T k, L n) { for (L i = 0; i < n; i++) a[i] %= k; }",
}


def wider(element):
    """The type of twice the width, or the same where there is none."""
    for narrow, wide in (("8", "16"), ("16", "32"), ("32", "64")):
        if element.endswith(f"t{narrow}_t"):
            return element.replace(narrow, wide)
    return element


def source(name, template, element, length, restrict):
    """The function of a template."""
    words = {"T": element, "W": wider(element), "L": length, "R": "restrict" if restrict else "", "f": name}
    parts, word = [], ""
    for c in TEMPLATES[template] + "\n":
        if c.isalnum() or c == "_":
            word += c
        else:
            parts.append(words.get(word, word) + c)
            word = ""
    return "".join(parts)


def loops(draw, count):
    """COUNT loops with distinct names: each template with each element type before any comes a second time, the rest
    drawn. Each is (template, name, source)."""
    chosen, made = [], set()
    while len(chosen) < count:
        order = list(itertools.product(TEMPLATES, TYPES))
        draw.shuffle(order)
        for template, element in order:
            key = (template, element, draw.choice(LENGTHS), draw.random() < 0.5)
            if len(chosen) < count and (key not in made or len(made) > 1000):
                made.add(key)
                name = f"{template}_{len(chosen)}"
                chosen.append((template, name, source(name, *key)))
    return chosen
