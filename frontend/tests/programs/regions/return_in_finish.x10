// A return in a finish waits for its activities.
// $ run
// 0: 10
// 0: 1
// 0: 20
// 0: 2
// 0: 30
// 0: 103
class Box { var n: Int; }
def work(b: Box, k: Int): Int {
  finish {
    async { for (i in 1..20) {} atomic b.n += 1; }
    if (k == 1) return 10;
    if (k == 2) return 20;
    atomic b.n += 100;
  }
  return 30;
}
def main() {
  val b = new Box(0);
  for (k in 1..3) {
    Console.OUT.println(work(b, k));
    Console.OUT.println(b.n);
  }
}
