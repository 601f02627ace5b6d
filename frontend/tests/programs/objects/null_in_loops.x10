// A list is walked by a var, and by continue.
// $ run
// 0: 3
// 0: 0
class Node { val n: Int; val next: Node; }
def sum(list: Node): Int {
  var rest: Node = list;
  var total: Int = 0;
  for (i in 1..10) {
    if (rest == null) break;
    if (rest.n < 0) { rest = rest.next; continue; }
    total += rest.n;
    rest = rest.next;
  }
  return total;
}
def main() {
  Console.OUT.println(sum(new Node(1, new Node(-5, new Node(2, null)))));
  Console.OUT.println(sum(null));
}
