// Also by at.
// $ refused 6:14
// `go` calls itself
// Begin it by `async` in a `finish`, with an object for the result: only activities recur.
def go(n: Int) {
  if (n > 0) at (here.next()) go(n - 1);
}
def main() { go(3); }
