// A field of what may be null gets a value.
// $ refused 9:3
// `next` may be null here
// Ask before it: `if (next != null) ..`.
class Node { var n: Int; var next: Node; }
def main() {
  val node = new Node(1, null);
  val next = node.next;
  next.n = 2;
}
