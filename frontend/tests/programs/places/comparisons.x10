// Places are compared, as conditions and as values.
// $ run --places 2
// 0: other
// 0: other
// 0: here
// 0: false
// 0: true
// 0: same
// 0: away
// 0: true
// 0: true
def ask(p: Place, q: Place) {
  if (p == q) Console.OUT.println("same"); else Console.OUT.println("other");
  if (p != q) Console.OUT.println("other");
  if (here == p) Console.OUT.println("here");
  if (p != here) Console.OUT.println("away");
  val same = p == q;
  Console.OUT.println(same);
  Console.OUT.println(here == here);
}
def main() {
  ask(here, here.next());
  ask(here.next(), Place(1));
}
