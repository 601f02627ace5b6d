// A failure ends the body of an async or at, and not who started it.
// $ run
// 0: in_an_activity.x10:11: division by zero
// 0: in_an_activity.x10:12: division by zero
// 0: in_an_activity.x10:13: division by zero
// 0: 0
// 0: main goes on
def main() {
  var zero: Int = 0;
  val n = zero;
  finish async { Console.OUT.println(1 / n); Console.OUT.println("never reached"); }
  at (here.next()) { Console.OUT.println(1 % n); Console.OUT.println("never reached"); }
  Console.OUT.println(at (here.next()) 3 / n);
  Console.OUT.println("main goes on");
}
