// Nor does return.
// $ refused 6:18
// `return` is in the body of `async`
// Nothing jumps out of it: write what is left to do under an `if`.
def f(): Int {
  finish async { return 1; }
  return 2;
}
def main() {}
