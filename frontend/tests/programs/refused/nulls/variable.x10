// A var that is null on one way.
// $ refused 9:23
// `node` may be null here
// Ask before it: `if (node != null) ..`.
class Node { var n: Int; }
def main() {
  var node: Node = new Node(1);
  if (here.id == 0) node = null;
  Console.OUT.println(node.n);
}
