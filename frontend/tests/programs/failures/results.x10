// What a def gives where it fails: 0, false, an empty text, here, null.
// $ run
// 0: results.x10:15: division by zero
// 0: 0
// 0: results.x10:16: division by zero
// 0: false
// 0: results.x10:17: division by zero
// 0: 0
// 0: results.x10:18: division by zero
// 0: 0
// 0: results.x10:19: division by zero
// 0: true
// 0: 1
class Box { var n: Int; }
def number(n: Int): Int = 1 / n;
def truth(n: Int): Boolean = 1 / n == 1;
def text(n: Int): String { Console.OUT.println(1 / n); return "one"; }
def place(n: Int): Place = Place(5 / n).next();
def box(n: Int): Box = new Box(1 / n);
def main() {
  Console.OUT.println(number(0));
  Console.OUT.println(truth(0));
  Console.OUT.println(text(0).length());
  Console.OUT.println(place(0).id);
  Console.OUT.println(box(0) == null);
  val b = box(1);
  if (b != null) Console.OUT.println(b.n);
}
