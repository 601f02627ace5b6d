// A reference of which nothing is known isn't opened.
// $ refused 6:34
// `c` is opened, and its home isn't known to be here (line 9 passes one whose home isn't known to be there)
// Write `at (c.home) ..`, or `if (here == c.home) ..`.
class Counter { var n: Int; }
def add(c: GlobalRef[Counter]) { c().n += 1; }
def main() {
  val c = GlobalRef(new Counter(0));
  at (here.next()) add(c);
}
