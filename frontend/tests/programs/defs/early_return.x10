// What stands behind a return isn't done.
// $ run
// 0: -1
// 0: 0
// 0: 1
// 0: 1
def sign(n: Int): Int {
  if (n < 0) return -1;
  if (n == 0) { return 0; } else { return 1; }
}
def say(n: Int) {
  if (n > 1) return;
  Console.OUT.println(n);
}
def main() {
  Console.OUT.println(sign(-5));
  Console.OUT.println(sign(0));
  Console.OUT.println(sign(5));
  say(1);
  say(2);
}
