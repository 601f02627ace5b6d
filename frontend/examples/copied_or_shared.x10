// An object is shared by a call and an async, and copied by an at, also where that goes nowhere.
// $ run
// 0: 2
// 0: 2
// 0: 3
// 0: 3
// 0: 4
// 0: 3
class Counter { var n: Int; }
def count(c: Counter) {
  val n = c.n + 1;
  c.n = n;
  Console.OUT.println(n);
}
def main() {
  val c = new Counter(1);
  count(c);
  Console.OUT.println(c.n);
  finish async count(c);
  Console.OUT.println(c.n);
  at (here) count(c);
  Console.OUT.println(c.n);
}
