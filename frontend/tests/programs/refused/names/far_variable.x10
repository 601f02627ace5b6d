// Without a near one.
// $ refused 6:23
// there is no `x` here
// Declare it: `val x = ..;`.
def main() {
  Console.OUT.println(x);
}
