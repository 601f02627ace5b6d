// at with a value of each type.
// $ run --places 2
// 0: 11
// 0: true
// 0: there!
// 0: 1
// 0: 4
// 0: 0
class Box { var n: Int; val p: Place; }
def main() {
  val p = here.next();
  Console.OUT.println(at (p) here.id + 10);
  Console.OUT.println(at (p) here == p);
  Console.OUT.println((at (p) "there") + "!");
  Console.OUT.println((at (p) here).id);
  val box = at (p) new Box(3, here);
  Console.OUT.println(box.n + box.p.id);
  Console.OUT.println(at (p) (at (here.next()) here.id));
}
