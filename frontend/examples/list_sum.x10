// Exercise 5: the sum of a list.
// $ run
// 0: 15
class Node { val value: Int; val next: Node; }
def sum(list: Node): Int {
  var node: Node = list;
  var total: Int = 0;
  while (node != null) @bound(100) {
    total += node.value;
    node = node.next;
  }
  return total;
}
def main() {
  var list: Node = null;
  for (i in 1..5) list = new Node(i, list);
  Console.OUT.println(sum(list));
}
