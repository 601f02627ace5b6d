// A parameter that may be null.
// $ refused 6:44
// `node` may be null here (line 9 passes null, or what may be null)
// Ask before it: `if (node != null) ..`.
class Node { var n: Int; }
def show(node: Node) { Console.OUT.println(node.n); }
def main() {
  show(new Node(1));
  show(null);
}
