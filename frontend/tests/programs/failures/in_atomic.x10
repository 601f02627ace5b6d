// A failure in an atomic region leaves it, and ends the def.
// $ run
// 0: worked
// 0: 4
// 0: in_atomic.x10:11: division by zero
// 0: 1
class Box { var n: Int; }
def work(box: Box, by: Int) {
  atomic {
    box.n = 1;
    box.n = 6 / by;
    box.n += 1;
  }
  Console.OUT.println("worked");
}
def main() {
  val box = new Box(0);
  work(box, 2);
  Console.OUT.println(box.n);
  work(box, 0);
  Console.OUT.println(box.n);
}
