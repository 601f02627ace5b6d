// Exercise 4: a to the power n, for n from 0 to 63.
// $ run
// 0: 81
// 0: 1024
// 0: 1
def power(a: Int, n: Int): Int {
  var product: Int = 1;
  for (i in 1..n) @bound(63) product *= a;
  return product;
}
def main() {
  Console.OUT.println(power(3, 4));
  Console.OUT.println(power(2, 10));
  Console.OUT.println(power(7, 0));
}
