// A variable of another block.
// $ refused 7:23
// there is no `n` here
// Declare it: `val n = ..;`.
def main() {
  { val n = 1; }
  Console.OUT.println(n);
}
