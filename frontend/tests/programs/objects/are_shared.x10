// Two variables have one object.
// $ run
// 0: 2
// 0: 9
class Box { var n: Int; }
def set(b: Box) { b.n = 9; }
def main() {
  val a = new Box(1);
  val b = a;
  b.n = 2;
  Console.OUT.println(a.n);
  set(b);
  Console.OUT.println(a.n);
}
