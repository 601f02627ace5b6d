// A finish waits for all that was started in it, by whomever.
// $ run
// 0: 7
def third(r: Rail[Byte]) {
  for (i in 1..40) {}
  r(0) = 7;
}
def second(r: Rail[Byte]) { async third(r); }
def first(r: Rail[Byte]) { async second(r); }
def main() {
  val r = new Rail[Byte](1);
  finish async first(r);
  Console.OUT.println(r(0));
}
