// A zero divisor ends the def, which gives 0.
// $ run
// 0: divided
// 0: 3
// 0: division.x10:9: division by zero
// 0: 0
// 0: division.x10:17: division by zero
def quotient(a: Int, b: Int): Int {
  val q = a / b;
  Console.OUT.println("divided");
  return q;
}
def main() {
  Console.OUT.println(quotient(7, 2));
  Console.OUT.println(quotient(7, 0));
  var zero: Int = 0;
  zero %= zero;
  Console.OUT.println("never reached");
}
