// A def that can end without its result.
// $ refused 5:5
// `sign` can end without a result
// Put `return ..;` at its end: it gives an Int.
def sign(n: Int): Int {
  if (n < 0) return -1;
}
def main() {}
