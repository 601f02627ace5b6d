// The end of a range is computed once, before the first turn.
// $ run
// 0: 1
// 0: 2
// 0: 3
// 0: 10
def main() {
  var last: Int = 3;
  for (i in 1..last) @bound(10) {
    last = 10;
    Console.OUT.println(i);
  }
  Console.OUT.println(last);
}
