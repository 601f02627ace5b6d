// Numbers have 64 bits, and wrap.
// $ run
// 0: -9223372036854775808
// 0: 9223372036854775807
// 0: -2
// 0: -9223372036854775808
// 0: -9223372036854775808
// 0: 0
def main() {
  var most: Int = 9223372036854775807;
  var least: Int = -9223372036854775808;
  Console.OUT.println(most + 1);
  Console.OUT.println(least - 1);
  Console.OUT.println(most * 2);
  Console.OUT.println(-least);
  Console.OUT.println(least / -1);
  Console.OUT.println(least % -1);
}
