// Nor does a parameter.
// $ refused 6:3
// `n` is a val, and gets a second value
// Copy it: `var n1 = n;`.
def next(n: Int): Int {
  n += 1;
  return n;
}
def main() {}
