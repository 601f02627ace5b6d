// After a test a variable is an object, in every form of the test.
// $ run
// 0: null
// 0: null
// 0: null or more
// 0: 1
// 0: 1
// 0: 1
// 0: 2
// 0: 2
// 0: 2
// 0: 2
// 0: more
// 0: null or more
// 0: 3
class Node { var n: Int; var next: Node; }
def show(node: Node) {
  if (node != null) Console.OUT.println(node.n); else Console.OUT.println("null");
  if (node == null) Console.OUT.println("null"); else Console.OUT.println(node.n);
  if (!(node == null)) Console.OUT.println(node.n);
  if (null != node && node.n > 1) Console.OUT.println("more");
  if (node == null || node.n > 1) Console.OUT.println("null or more");
  if (node == null) return;
  Console.OUT.println(node.n + 1);
}
def main() {
  show(null);
  show(new Node(1, null));
  show(new Node(2, null));
}
