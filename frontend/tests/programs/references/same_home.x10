// A second reference with the same home opens there too.
// $ run --places 2
// 0: two homes
// 1: 3
class Box { var n: Int; }
def sum(a: GlobalRef[Box], b: GlobalRef[Box]) {
  if (a.home == b.home) Console.OUT.println(at (a.home) a().n + b().n);
  else Console.OUT.println("two homes");
}
def made(n: Int): GlobalRef[Box] = GlobalRef(new Box(n));
def main() {
  val a = made(1);
  val b = made(2);
  val c = at (here.next()) made(3);
  at (here.next()) sum(a, b);
  sum(a, c);
}
