// Exercise 7: both are at work at the same time, and nobody writes where another one does.
// $ run
// 0: 2
class Counter { var n: Int; }
def add(c: Counter) { c.n = c.n + 1; }
def main() {
  val a = new Counter(0);
  val b = new Counter(0);
  finish {
    async add(a);
    async add(b);
  }
  Console.OUT.println(a.n + b.n);
}
