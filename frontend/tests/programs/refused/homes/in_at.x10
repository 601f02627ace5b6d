// Not in the body of an at elsewhere.
// $ refused 8:40
// `c` is opened, and its home isn't known to be here
// Write `at (c.home) ..`, or `if (here == c.home) ..`.
class Counter { var n: Int; }
def main() {
  val c = GlobalRef(new Counter(0));
  at (here.next()) Console.OUT.println(c().n);
}
