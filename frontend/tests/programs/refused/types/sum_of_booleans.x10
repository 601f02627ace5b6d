// Truth values have no sum.
// $ refused 6:23
// what `+` is for is an Int, and this is a Boolean
// Give it an Int.
def main() {
  Console.OUT.println(true + false);
}
