// Exercise 12: the client asks for the home of the counter, and goes there.
// $ run --places 3
// 0: 2
// 1: 2
class Counter { var n: Int; }
def next(c: GlobalRef[Counter]): Int {
  val counter = c();
  val n = counter.n + 1;
  counter.n = n;
  return n;
}
def client(c: GlobalRef[Counter]) { Console.OUT.println(at (c.home) next(c)); }
def main() {
  val counter = new Counter(1);
  val c = GlobalRef(counter);
  at (Place(1)) client(c);
  Console.OUT.println(counter.n);
}
