// Each form of asking whether the home is here.
// $ run --places 2
// 0: 5
// 0: 6
// 0: 7
// 0: positive
// 0: 8
// 1: away
class Box { var n: Int; }
def show(g: GlobalRef[Box]) {
  if (here == g.home) Console.OUT.println(g().n);
  if (g.home == here) { val p = here; Console.OUT.println(g().n + 1); }
  if (g.home != here) Console.OUT.println("away"); else Console.OUT.println(g().n + 2);
  val home = g.home;
  if (home == here && g().n > 0) Console.OUT.println("positive");
  if (here != g.home) return;
  Console.OUT.println(g().n + 3);
}
def main() {
  val g = GlobalRef(new Box(5));
  show(g);
  at (here.next()) show(g);
}
