// A def calls others, but never itself.
// $ run
// 0: 25
// 0: 256
def square(n: Int): Int = n * n;
def sumOfSquares(a: Int, b: Int): Int = square(a) + square(b);
def show(n: Int) { Console.OUT.println(n); }
def main() {
  show(sumOfSquares(3, 4));
  var n: Int = 2;
  for (i in 1..3) n = square(n);
  show(n);
}
