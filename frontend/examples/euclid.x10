// The greatest common divisor. No two numbers need more than 92 turns.
// $ run
// 0: 21
// 0: 1
def divisor(a: Int, b: Int): Int {
  var x: Int = a;
  var y: Int = b;
  while (y != 0) @bound(92) {
    val rest = x % y;
    x = y;
    y = rest;
  }
  return x;
}
def main() {
  Console.OUT.println(divisor(1071, 462));
  Console.OUT.println(divisor(7540113804746346429, 4660046610375530309));
}
