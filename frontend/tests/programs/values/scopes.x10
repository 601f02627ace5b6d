// A block has variables of its own; two blocks may use one name.
// $ run
// 0: 1
// 0: two
// 0: 3
def main() {
  {
    val n = 1;
    Console.OUT.println(n);
  }
  {
    val n = "two";
    Console.OUT.println(n);
  }
  for (n in 3..3) Console.OUT.println(n);
  ;
}
