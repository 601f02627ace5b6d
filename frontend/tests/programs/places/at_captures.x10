// The body of an at gets copies, and here is another place.
// $ run --places 2
// 0: 1
// 1: 50
// 1: text
// 1: true
// 1: 1
class Node { var n: Int; var next: Node; }
def main() {
  val a = new Node(1, null);
  val b = new Node(2, a);
  val s = "text";
  val flag = true;
  at (here.next()) {
    val first = b.next;
    a.n = 50;
    if (first != null) Console.OUT.println(first.n);
    Console.OUT.println(s);
    Console.OUT.println(flag);
    Console.OUT.println(here.id);
  }
  Console.OUT.println(a.n);
}
