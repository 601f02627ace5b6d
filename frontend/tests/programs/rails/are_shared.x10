// A rail in two objects is one rail.
// $ run
// 0: 6
class Holder { val r: Rail[Byte]; }
def main() {
  val r = new Rail[Byte](1);
  val a = new Holder(r);
  val b = new Holder(a.r);
  b.r(0) = 3;
  Console.OUT.println(a.r(0) + r(0));
}
