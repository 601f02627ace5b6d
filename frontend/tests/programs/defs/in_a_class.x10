// Static defs and constants of a class, by its name and from within.
// $ run
// 0: 22
// 0: 10
class Numbers {
  static val BASE = 10;
  static def shifted(n: Int): Int = n + BASE;
  static def twice(n: Int): Int = shifted(n) + Numbers.shifted(n);
}
def main() {
  Console.OUT.println(Numbers.twice(1));
  Console.OUT.println(Numbers.BASE);
}
