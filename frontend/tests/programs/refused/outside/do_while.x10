// A while asks first.
// $ refused 6:3
// `do` isn't part of the subset
// Write `while (..) @bound(N) ..`.
def main() {
  do { Console.OUT.println(1); } while (false);
}
