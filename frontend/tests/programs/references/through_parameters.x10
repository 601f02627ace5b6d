// Where each call passes a reference that is at home, the def needs no test.
// $ run
// 0: 12
class Box { var n: Int; }
def inner(g: GlobalRef[Box]): Int = g().n;
def outer(g: GlobalRef[Box]): Int = inner(g) * 2;
def main() {
  val g = GlobalRef(new Box(6));
  Console.OUT.println(outer(g));
}
