// A loop that would make more turns than its bound ends its def, and says so.
// $ run
// 0: 1
// 0: 2
// 0: 7
// 0: 1
// 0: 2
// 0: bound_too_small.x10:12: the loop makes more than 2 turns
// 0: 0
// 0: bound_too_small.x10:19: the loop makes more than 4 turns
def show(n: Int): Int {
  for (i in 1..n) @bound(2) Console.OUT.println(i);
  return 7;
}
def main() {
  Console.OUT.println(show(2));
  Console.OUT.println(show(3));
  var n: Int = 0;
  while (n < 9) @bound(4) n += 2;
  Console.OUT.println("never reached");
}
