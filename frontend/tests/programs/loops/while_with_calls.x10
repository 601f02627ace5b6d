// The condition is computed in each turn.
// $ run
// 0: 0
// 0: 1
// 0: 2
// 0: done
def more(n: Int): Boolean {
  Console.OUT.println(n);
  return n < 2;
}
def main() {
  var n: Int = 0;
  while (more(n)) @bound(2) n++;
  Console.OUT.println("done");
}
