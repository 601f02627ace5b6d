// A return out of two loops.
// $ run
// 0: 607
// 0: 0
def found(wanted: Int): Int {
  for (a in 2..9) for (b in a..9) @bound(9) if (a * b == wanted) return a * 100 + b;
  return 0;
}
def main() {
  Console.OUT.println(found(42));
  Console.OUT.println(found(11));
}
