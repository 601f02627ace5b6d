// What holds in the first turn must hold in the second.
// $ refused 13:25
// `c` is opened, and its home isn't known to be here
// Write `at (c.home) ..`, or `if (here == c.home) ..`.
class Counter { var n: Int; }
class Item { val c: GlobalRef[Counter]; val next: Item; }
def show(item: Item) {
  if (item == null) return;
  var c: GlobalRef[Counter] = item.c;
  var rest: Item = item.next;
  if (here != c.home) return;
  for (i in 1..10) {
    Console.OUT.println(c().n);
    if (rest == null) break;
    c = rest.c;
    rest = rest.next;
  }
}
def main() { show(null); }
