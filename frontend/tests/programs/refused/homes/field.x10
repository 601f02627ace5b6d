// Not from a field.
// $ refused 9:23
// `h.c` is opened, and its home isn't known to be here
// Put it into a val: `val g = h.c; at (g.home) ..`, or `if (here == g.home) ..`.
class Counter { var n: Int; }
class Holder { val c: GlobalRef[Counter]; }
def main() {
  val h = new Holder(GlobalRef(new Counter(0)));
  Console.OUT.println(h.c().n);
}
