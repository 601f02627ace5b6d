// A linked list, turned round in place.
// $ run
// 0: 5
// 0: 4
// 0: 3
// 0: 2
// 0: 1
// 0: 1
// 0: 2
// 0: 3
// 0: 4
// 0: 5
class Node { val value: Int; var next: Node; }
def show(list: Node) {
  var node: Node = list;
  while (node != null) @bound(100) {
    Console.OUT.println(node.value);
    node = node.next;
  }
}
def turned(list: Node): Node {
  var done: Node = null;
  var rest: Node = list;
  while (rest != null) @bound(100) {
    val node = rest;
    rest = node.next;
    node.next = done;
    done = node;
  }
  return done;
}
def main() {
  var list: Node = null;
  for (i in 1..5) list = new Node(i, list);
  show(list);
  show(turned(list));
}
