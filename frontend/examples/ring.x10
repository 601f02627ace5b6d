// A token goes round a ring of places.
// $ run --places 3
// 0: 7
// 0: 4
// 0: 1
// 0: the ring is at rest
// 1: 6
// 1: 3
// 1: 0
// 2: 5
// 2: 2
def token(left: Int) {
  Console.OUT.println(left);
  if (left != 0) async at (here.next()) token(left - 1);
}
def main() {
  finish async at (here) token(7);
  Console.OUT.println("the ring is at rest");
}
