// Comparing the numbers of places says nothing of homes.
// $ refused 7:49
// `a` is opened, and its home isn't known to be here (line 11 passes one whose home isn't known to be there)
// Write `at (a.home) ..`, or `if (here == a.home) ..`.
class Counter { var n: Int; }
def show(a: GlobalRef[Counter]) {
  if (here.id == a.home.id) Console.OUT.println(a().n);
}
def main() {
  val a = GlobalRef(new Counter(0));
  at (here.next()) show(a);
}
