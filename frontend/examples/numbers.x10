// Numbers have 64 bits. Sums, differences and products that don't fit wrap.
// $ run
// 0: 42
// 0: 1
// 0: -9223372036854775808
def main() {
  var a: Int = 6;
  var b: Int = 7;
  Console.OUT.println(a * b);
  Console.OUT.println(b - a);
  a = 9223372036854775807;
  b = 1;
  Console.OUT.println(a + b);
}
