// Exercise 8: the finish holds the loop, so all four activities are at work at the same time.
// $ run
// 0: 10
def work(r: Rail[Byte], i: Int) {
  for (turn in 1..20) {}
  r(i) = i;
}
def main() {
  val r = new Rail[Byte](5);
  finish for (i in 1..4) async work(r, i);
  var sum: Int = 0;
  for (i in 0..4) sum += r(i);
  Console.OUT.println(sum);
}
