// A parameter and a field that only get objects need no test.
// $ run
// 0: 13
class Inner { var n: Int; }
class Outer { var inner: Inner; }
def add(o: Outer, n: Int) { o.inner.n += n; }
def main() {
  val o = new Outer(new Inner(1));
  add(o, 2);
  o.inner = new Inner(10);
  add(o, 3);
  Console.OUT.println(o.inner.n);
}
