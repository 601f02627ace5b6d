// Truth values are compared, negated, kept in variables and passed on.
// $ run
// 0: false
// 0: true
// 0: true
// 0: false
// 0: false
// 0: now it is false
def both(a: Boolean, b: Boolean): Boolean = a && b;
def main() {
  var yes: Boolean = true;
  val no = !yes;
  Console.OUT.println(yes == no);
  Console.OUT.println(yes != no);
  Console.OUT.println(both(yes, no) || yes);
  Console.OUT.println(both(yes, no) || no);
  yes = yes && no;
  Console.OUT.println(yes);
  if (!yes) Console.OUT.println("now it is false");
}
