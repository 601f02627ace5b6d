// A failure in a finish waits for its activities, and then ends the def.
// $ run
// 0: in_a_finish.x10:10: division by zero
// 0: 0
// 0: 5
class Box { var n: Int; }
def work(box: Box, zero: Int): Int {
  finish {
    async { for (i in 1..20) {} box.n = 5; }
    Console.OUT.println(7 / zero);
    Console.OUT.println("never reached");
  }
  Console.OUT.println("never reached");
  return 1;
}
def main() {
  val box = new Box(0);
  Console.OUT.println(work(box, 0));
  Console.OUT.println(box.n);
}
