// A reference that is made here opens here.
// $ run
// 0: 5
// 0: true
class Box { var n: Int; }
def main() {
  val g = GlobalRef(new Box(4));
  g().n += 1;
  val b = g();
  Console.OUT.println(b.n);
  Console.OUT.println(g.home == here);
}
