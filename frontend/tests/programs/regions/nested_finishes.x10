// A return out of two finishes ends both.
// $ run
// 0: true
// 0: 11
class Box { var n: Int; }
def work(b: Box): Boolean {
  finish {
    async { for (i in 1..30) {} atomic b.n += 1; }
    finish {
      async { for (i in 1..10) {} atomic b.n += 10; }
      return b.n < 1000;
    }
  }
}
def main() {
  val b = new Box(0);
  Console.OUT.println(work(b));
  Console.OUT.println(b.n);
}
