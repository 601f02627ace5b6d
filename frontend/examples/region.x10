// Exercise 13: the region is where the counter is, around what reads it and what writes it.
// $ run
// 0: 10
class Counter { var n: Int; }
def add(c: GlobalRef[Counter]) {
  val counter = c();
  atomic counter.n = counter.n + 1;
}
def client(c: GlobalRef[Counter]) {
  for (i in 1..5) at (c.home) add(c);
}
def main() {
  val counter = new Counter(0);
  val c = GlobalRef(counter);
  finish {
    async at (Place(1)) client(c);
    async at (Place(2)) client(c);
  }
  Console.OUT.println(counter.n);
}
