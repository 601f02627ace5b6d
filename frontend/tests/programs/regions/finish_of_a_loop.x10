// finish before a loop, and a loop of finishes.
// $ run
// 0: 15
// 0: 1
// 0: 2
// 0: 3
class Box { var n: Int; }
def main() {
  val b = new Box(0);
  finish for (i in 1..5) async atomic b.n += i;
  Console.OUT.println(b.n);
  for (i in 1..3) finish async { Console.OUT.println(i); }
}
