// An `at` that brings an object back: a copy, with all that it leads to.
// $ run
// 0: 1
// 0: made there
// 0: 6
class Box { var n: Int; val text: String; }
def made(): Box = new Box(here.id, "made there");
def main() {
  val box = at (Place(1)) made();
  Console.OUT.println(box.n);
  Console.OUT.println(box.text);
  box.n += 5;
  Console.OUT.println(box.n);
}
