// A counter that two activities count up, three times each.
// $ run
// 0: 6
class Counter { var n: Int; }
def count(c: Counter) {
  for (i in 1..3) atomic c.n = c.n + 1;
}
def main() {
  val c = new Counter(0);
  finish {
    async count(c);
    async count(c);
  }
  Console.OUT.println(c.n);
}
