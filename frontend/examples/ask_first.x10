// One def serves all places: at home it opens the reference, elsewhere it says that it can't.
// $ run
// 0: 7
// 1: the object is elsewhere
class Box { var n: Int; }
def show(g: GlobalRef[Box]) {
  if (here == g.home) Console.OUT.println(g().n);
  else Console.OUT.println("the object is elsewhere");
}
def main() {
  val g = GlobalRef(new Box(7));
  show(g);
  at (Place(1)) show(g);
}
