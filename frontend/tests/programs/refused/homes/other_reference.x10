// Asking about one reference says nothing of another.
// $ refused 7:43
// `b` is opened, and its home isn't known to be here (line 11 passes one whose home isn't known to be there)
// Write `at (b.home) ..`, or `if (here == b.home) ..`.
class Counter { var n: Int; }
def show(a: GlobalRef[Counter], b: GlobalRef[Counter]) {
  if (here == a.home) Console.OUT.println(b().n);
}
def main() {
  val a = GlobalRef(new Counter(0));
  at (here.next()) show(a, a);
}
