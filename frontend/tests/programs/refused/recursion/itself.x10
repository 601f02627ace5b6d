// A def that calls itself.
// $ refused 7:14
// `fact` calls itself
// Begin it by `async` in a `finish`, with an object for the result: only activities recur.
def fact(n: Int): Int {
  if (n < 2) return 1;
  return n * fact(n - 1);
}
def main() { Console.OUT.println(fact(5)); }
