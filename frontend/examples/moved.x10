// What is known of a reference ends when the variable gets another one: then it is asked again.
// $ run
// 0: 3
// 1: 4
class Counter { var n: Int; }
def made(n: Int): GlobalRef[Counter] = GlobalRef(new Counter(n));
def show(a: GlobalRef[Counter], b: GlobalRef[Counter]) {
  var g: GlobalRef[Counter] = a;
  if (here == g.home) Console.OUT.println(g().n);
  g = b;
  if (here == g.home) Console.OUT.println(g().n);
}
def main() {
  val a = made(3);
  val p = Place(1);
  val b = at (p) made(4);
  show(a, b);
  at (p) show(a, b);
}
