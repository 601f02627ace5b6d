// What is made of constants is computed by the compiler, with the same numbers.
// $ run
// 0: -9223372036854775808
// 0: -9223372036854775808
// 0: -3
// 0: -1
// 0: true
// 0: abc
// 0: 271
static val MOST = 9223372036854775807;
def main() {
  Console.OUT.println(MOST + 1);
  Console.OUT.println(-9223372036854775808 / -1);
  Console.OUT.println(-7 / 2);
  Console.OUT.println(-7 % 2);
  Console.OUT.println(2 < 3 && !(2 == 3));
  Console.OUT.println("a" + "b" + "c");
  Console.OUT.println(0xff + 0X10);
}
