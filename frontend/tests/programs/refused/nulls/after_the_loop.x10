// A var that is null behind a loop.
// $ refused 9:23
// `node` may be null here
// Ask before it: `if (node != null) ..`.
class Node { var n: Int; var next: Node; }
def main() {
  var node: Node = new Node(1, null);
  while (node != null) @bound(10) node = node.next;
  Console.OUT.println(node.n);
}
