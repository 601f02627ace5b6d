// An async whose body is a call starts it at once, with arguments that are computed before.
// $ run
// 0: 41
// 0: sum
// 0: -20
// 0: minus
// 0: 20
// 0: block
def show(n: Int, s: String) { Console.OUT.println(n); Console.OUT.println(s); }
def main() {
  val n = here.id + 20;
  finish async show(n * 2 + 1, "sum");
  finish async show(-n, "minus");
  finish async { show(n, "block"); }
}
