// Fields with first values, and `new` without arguments.
// $ run
// 0: 5
// 0: none
// 0: true
// 0: true
// 0: 7
// 0: 0
// 0: false
class Settings { var n: Int = 5; var name: String = "none"; val on: Boolean = true; var next: Settings = null; var size: Int; }
class Empty {}
def main() {
  val s = new Settings(7);
  Console.OUT.println(s.n);
  Console.OUT.println(s.name);
  Console.OUT.println(s.on);
  Console.OUT.println(s.next == null);
  Console.OUT.println(s.size);
  val t = new Settings();
  Console.OUT.println(t.size);
  val e = new Empty();
  Console.OUT.println(e == null);
}
