// A number is no condition.
// $ refused 7:7
// the condition is a Boolean, and this is an Int
// Compare it, as in `n != 0`.
def main() {
  var n: Int = 1;
  if (n) Console.OUT.println(1);
}
