// What doesn't change in a loop stays right when it is computed before it.
// $ run
// 0: turn
// 0: turn
// 0: turn
// 0: 321
def main() {
  var n: Int = 0;
  for (i in 1..3) {
    val step = 100;
    n += step;
    n += here.id + 7;
    Console.OUT.println("turn");
  }
  Console.OUT.println(n);
}
