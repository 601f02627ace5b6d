// A val that is made from a var keeps its value.
// $ run
// 0: 1
// 0: 2
// 0: 1
def main() {
  var n: Int = 1;
  val before = n;
  n = 2;
  val after = n;
  n = before;
  Console.OUT.println(before);
  Console.OUT.println(after);
  Console.OUT.println(n);
}
