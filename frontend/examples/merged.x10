// Where two ways come together, the reference that was chosen is asked for its home.
// $ run
// 0: 3
class Counter { var n: Int; }
def made(n: Int): GlobalRef[Counter] = GlobalRef(new Counter(n));
def show(a: GlobalRef[Counter], b: GlobalRef[Counter], choice: Int) {
  var g: GlobalRef[Counter] = a;
  if (choice != 0) g = b;
  if (here == g.home) Console.OUT.println(g().n);
}
def main() {
  val a = made(3);
  val b = at (Place(1)) made(4);
  show(a, b, 0);
  show(a, b, 1);
}
