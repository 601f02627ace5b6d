// A list of references: each turn asks about its own one.
// $ run
// 0: 3
// 1: 4
class Box { var n: Int; }
class Item { val ref: GlobalRef[Box]; val next: Item; }
def made(n: Int): GlobalRef[Box] = GlobalRef(new Box(n));
def show(items: Item) {
  var item: Item = items;
  while (item != null) @bound(10) {
    val ref = item.ref;
    item = item.next;
    if (here == ref.home) Console.OUT.println(ref().n);
  }
}
def main() {
  val a = made(3);
  val b = at (Place(1)) made(4);
  val items = new Item(a, new Item(b, null));
  show(items);
  at (Place(1)) show(items);
}
