// Properties of a class are vals that stand before its fields.
// $ run
// 0: 25
// 0: q
class Point(x: Int, y: Int) { var name: String; }
def main() {
  val p = new Point(3, 4, "p");
  Console.OUT.println(p.x * p.x + p.y * p.y);
  p.name = "q";
  Console.OUT.println(p.name);
}
