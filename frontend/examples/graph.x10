// A cyclic graph is copied as it is: what is shared stays shared, and what place 1 changes is its own.
// $ run
// 0: 1
// 1: 50
class Number { var value: Int; }
class Node { var number: Number; var other: Node; }
def walk(node: Node) {
  val other = node.other;
  if (other == null) return;
  val again = other.other;
  if (again == null) return;
  again.number.value = 50;
  Console.OUT.println(other.number.value);
}
def main() {
  val number = new Number(1);
  val first = new Node(number, null);
  val second = new Node(number, first);
  first.other = second;
  at (Place(1)) walk(first);
  Console.OUT.println(number.value);
}
