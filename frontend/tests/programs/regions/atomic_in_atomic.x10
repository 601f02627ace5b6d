// A region in a region is part of it.
// $ run
// 0: 16
class Box { var n: Int; }
def main() {
  val b = new Box(1);
  atomic {
    atomic b.n = 2;
    atomic { for (i in 1..3) b.n *= 2; }
    Console.OUT.println(b.n);
  }
}
