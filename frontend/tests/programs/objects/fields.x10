// Fields of each type, read and changed.
// $ run
// 0: 2
// 0: false
// 0: one!
// 0: true
// 0: 5
// 0: true
class All {
  var n: Int; var b: Boolean; var s: String; var p: Place; val r: Rail[Byte]; var other: All;
}
def main() {
  val a = new All(1, true, "one", here, new Rail[Byte](1), null);
  a.n = 2;
  a.b = !a.b;
  a.s = a.s + "!";
  a.p = a.p.next();
  a.r(0) = 5;
  Console.OUT.println(a.n);
  Console.OUT.println(a.b);
  Console.OUT.println(a.s);
  Console.OUT.println(a.p == here);
  Console.OUT.println(a.r(0));
  Console.OUT.println(a.other == null);
}
