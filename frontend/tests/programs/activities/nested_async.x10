// An async in an async, waited for by one finish.
// $ run
// 0: 3
class Box { var n: Int; }
def main() {
  val b = new Box(0);
  finish async {
    async { async { for (i in 1..9) {} atomic b.n += 1; } atomic b.n += 1; }
    atomic b.n += 1;
  }
  Console.OUT.println(b.n);
}
