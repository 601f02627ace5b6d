// References in fields and lists keep their homes.
// $ run --places 2
// 0: 10
// 0: 21
class Box { var n: Int; }
class Item { val g: GlobalRef[Box]; val next: Item; }
def show(item: Item) {
  var rest: Item = item;
  for (i in 1..5) {
    if (rest == null) return;
    val g = rest.g;
    rest = rest.next;
    Console.OUT.println(at (g.home) g().n + here.id);
  }
}
def made(n: Int): GlobalRef[Box] = GlobalRef(new Box(n));
def main() {
  val far = at (here.next()) made(20);
  show(new Item(made(10), new Item(far, null)));
}
