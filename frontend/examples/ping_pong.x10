// Main goes to place 1 and back, three times.
// $ run
// 0: 1
// 0: 3
// 0: 5
// 1: 2
// 1: 4
// 1: 6
def pong(n: Int): Int {
  Console.OUT.println(n);
  return n + 1;
}
def main() {
  var n: Int = 1;
  for (i in 1..3) {
    Console.OUT.println(n);
    val next = n + 1;
    n = at (Place(1)) pong(next);
  }
}
