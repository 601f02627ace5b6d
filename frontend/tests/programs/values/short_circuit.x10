// The right side of && and || is computed only where it decides.
// $ run
// 0: a
// 0: false
// 0: c
// 0: true
// 0: e
// 0: f
// 0: g
// 0: yes
// 0: h
// 0: i
// 0: j
// 0: true
def told(s: String, b: Boolean): Boolean {
  Console.OUT.println(s);
  return b;
}
def main() {
  Console.OUT.println(told("a", false) && told("b", true));
  Console.OUT.println(told("c", true) || told("d", false));
  if (told("e", true) && told("f", false) || told("g", true)) Console.OUT.println("yes");
  val b = (told("h", false) || told("i", true)) && !told("j", false);
  Console.OUT.println(b);
}
