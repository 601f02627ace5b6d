// Activities recur, also by two defs.
// $ run
// 0: 209
class Box { var n: Int; }
def down(n: Int, b: Box) { if (n > 0) { atomic b.n += n; async up(n - 1, b); } }
def up(n: Int, b: Box) { if (n > 0) { atomic b.n += 100; async down(n - 1, b); } }
def main() {
  val b = new Box(0);
  finish down(5, b);
  Console.OUT.println(b.n);
}
