// A step bound is told for each def, and for the bodies of at and async.
// $ bounds
// square 2
// main 65
// async in main 3
def square(n: Int): Int = n * n;
def main() {
  for (i in 1..10) Console.OUT.println(square(i));
  val n = 3;
  async { Console.OUT.println(n); }
}
