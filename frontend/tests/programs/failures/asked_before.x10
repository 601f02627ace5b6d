// Where the divisor is known not to be 0, nothing can fail.
// $ run
// 0: -1
// 0: 2
// 0: 7
// 0: 1
def quotient(a: Int, b: Int): Int {
  if (b == 0) return -1;
  return a / b;
}
def rest(a: Int, b: Int): Int {
  var n: Int = a;
  if (b != 0) n = a % b;
  return n;
}
def main() {
  Console.OUT.println(quotient(7, 0));
  Console.OUT.println(quotient(7, 3));
  Console.OUT.println(rest(7, 0));
  Console.OUT.println(rest(7, 3));
}
