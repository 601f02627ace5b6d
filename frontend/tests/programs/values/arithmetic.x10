// Sums, products, division toward zero, and remainders with the sign of the dividend.
// $ run
// 0: 12
// 0: 22
// 0: -85
// 0: -3
// 0: 2
// 0: 3
// 0: -2
def main() {
  var a: Int = 17;
  var b: Int = -5;
  Console.OUT.println(a + b);
  Console.OUT.println(a - b);
  Console.OUT.println(a * b);
  Console.OUT.println(a / b);
  Console.OUT.println(a % b);
  Console.OUT.println(-a / b);
  Console.OUT.println(-a % b);
}
