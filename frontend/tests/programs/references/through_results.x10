// A def gives references to objects of the place where it runs.
// $ run --places 2
// 0: 1
// 0: 2
// 0: 2
class Box { var n: Int; }
def made(n: Int): GlobalRef[Box] = GlobalRef(new Box(n));
def value(g: GlobalRef[Box]): Int = g().n;
def main() {
  val a = made(1);
  Console.OUT.println(a().n);
  val p = here.next();
  val b = at (p) made(2);
  Console.OUT.println(at (p) value(b));
  Console.OUT.println(at (b.home) b().n);
}
