// A word where none belongs.
// $ refused 6:12
// a `;` is missing
// Write `;` before `2`.
def main() {
  val n = 1 2;
}
