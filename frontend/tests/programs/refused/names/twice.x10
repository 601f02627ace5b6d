// Two variables of one name.
// $ refused 7:21
// there is a variable `n` here already
// Give one of the two another name.
def main() {
  val n = 1;
  if (n == 1) { val n = 2; }
}
