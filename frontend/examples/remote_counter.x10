// A counter at place 0 that a client at place 1 counts up. The reference is opened at its home alone.
// $ run
// 0: 3
// 1: 1
// 1: 2
// 1: 3
class Counter { var n: Int; }
def counted(c: GlobalRef[Counter]): Int {
  val counter = c();
  val n = counter.n + 1;
  counter.n = n;
  return n;
}
def client(c: GlobalRef[Counter]) {
  for (i in 1..3) Console.OUT.println(at (c.home) counted(c));
}
def main() {
  val counter = new Counter(0);
  val c = GlobalRef[Counter](counter);
  finish async at (Place(1)) client(c);
  Console.OUT.println(counter.n);
}
