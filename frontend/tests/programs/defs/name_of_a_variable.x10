// A def and a variable may have one name; a rail or reference of this name is opened.
// $ run
// 0: 1
// 0: 0
def f(n: Int): Int = n + 1;
def r(n: Int): Int = n + 2;
def main() {
  val f = here.id;
  val r = new Rail[Byte](1);
  Console.OUT.println(f(f));
  Console.OUT.println(r(f));
}
