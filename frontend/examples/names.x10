// Exercise 9: one object with two names travels as one object with two names, and it is a copy.
// $ run
// 0: 1
// 1: 9
class Box { var n: Int; }
def show(a: Box, b: Box) {
  a.n = 9;
  Console.OUT.println(b.n);
}
def main() {
  val a = new Box(1);
  val b = a;
  at (Place(1)) show(a, b);
  Console.OUT.println(b.n);
}
