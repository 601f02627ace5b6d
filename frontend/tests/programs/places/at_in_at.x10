// There and back again, without references.
// $ run --places 3
// 0: home
// 0: end
// 1: one
// 2: two
def main() {
  val home = here;
  at (here.next()) {
    Console.OUT.println("one");
    at (here.next()) {
      Console.OUT.println("two");
      at (home) Console.OUT.println("home");
    }
  }
  Console.OUT.println("end");
}
