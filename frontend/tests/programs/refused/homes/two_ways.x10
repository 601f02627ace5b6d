// Where two ways come together, only what both know is known.
// $ refused 9:23
// `c` is opened, and its home isn't known to be here
// Write `at (c.home) ..`, or `if (here == c.home) ..`.
class Counter { var n: Int; }
def show(a: GlobalRef[Counter], b: GlobalRef[Counter], first: Boolean) {
  var c: GlobalRef[Counter] = b;
  if (first && here == a.home) c = a;
  Console.OUT.println(c().n);
}
def main() {
  val a = GlobalRef(new Counter(0));
  val b = at (here.next()) GlobalRef(new Counter(1));
  show(a, b, true);
}
