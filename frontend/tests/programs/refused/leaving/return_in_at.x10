// Nor out of the body of an at.
// $ refused 6:22
// `return` is in the body of `at`
// Nothing jumps out of it: write what is left to do under an `if`.
def main() {
  at (here.next()) { return; }
}
