// All six comparisons, as conditions, with and without else.
// $ run
// 0: less
// 0: at most
// 0: not equal
// 0: different
// 0: zero
// 0: not less
// 0: at most
// 0: at least
// 0: equal
// 0: not zero
// 0: some
def ask(a: Int, b: Int) {
  if (a < b) Console.OUT.println("less"); else Console.OUT.println("not less");
  if (a <= b) Console.OUT.println("at most"); else Console.OUT.println("not at most");
  if (a > b) Console.OUT.println("more");
  if (a >= b) Console.OUT.println("at least");
  if (a == b) Console.OUT.println("equal"); else Console.OUT.println("not equal");
  if (a != b) Console.OUT.println("different");
  if (a == 0) Console.OUT.println("zero"); else Console.OUT.println("not zero");
  if (a != 0) Console.OUT.println("some");
}
def main() {
  ask(0, 1);
  ask(3, 3);
}
