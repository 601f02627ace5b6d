// Three ways to write an activity at another place.
// $ run --places 2
// 0: back
// 1: 101
// 1: 102
// 1: 103
// 1: 104
// 1: 105
def work(n: Int) { Console.OUT.println(n + here.id * 100); }
def main() {
  val p = here.next();
  finish async at (p) work(1);
  finish at (p) async work(2);
  finish async at (p) { work(3); work(4); }
  finish async { at (p) work(5); Console.OUT.println("back"); }
}
