// A field that may be null.
// $ refused 8:23
// `node.next` may be null here
// Put it into a val and ask: `val o = node.next; if (o != null) ..`.
class Node { var n: Int; var next: Node; }
def main() {
  val node = new Node(1, null);
  Console.OUT.println(node.next.n);
}
