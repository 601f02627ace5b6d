// Arguments in another order than the parameters.
// $ run
// 0: 9
// 0: 18
def minus(a: Int, b: Int): Int = a - b;
def swapped(a: Int, b: Int): Int = minus(b, a);
def twice(a: Int, b: Int): Int = minus(swapped(a, b), swapped(b, a)) + minus(a, a);
def main() {
  Console.OUT.println(swapped(1, 10));
  Console.OUT.println(twice(1, 10));
}
