// at (g.home) in its forms.
// $ run --places 2
// 0: 1111
// 1: 1111
class Box { var n: Int; }
def count(g: GlobalRef[Box]) {
  at (g.home) g().n += 1;
  val home = g.home;
  at (home) { val b = g(); b.n += 10; }
  val other = g;
  at (g.home) { other().n += 100; }
  finish async at (g.home) { g().n += 1000; }
  Console.OUT.println(at (g.home) g().n);
}
def main() {
  val b = new Box(0);
  val g = GlobalRef[Box](b);
  at (here.next()) count(g);
  Console.OUT.println(b.n);
}
