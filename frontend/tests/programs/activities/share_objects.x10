// An async has the same objects and rails, an at copies of them.
// $ run
// 0: 4
// 0: 6
// 0: 4
class Box { var n: Int; }
def main() {
  val b = new Box(1);
  val r = new Rail[Byte](1);
  finish async { b.n = 2; r(0) = 2; }
  Console.OUT.println(b.n + r(0));
  at (here) { b.n = 3; r(0) = 3; Console.OUT.println(b.n + r(0)); }
  Console.OUT.println(b.n + r(0));
}
