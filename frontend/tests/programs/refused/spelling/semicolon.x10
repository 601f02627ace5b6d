// A missing semicolon is told behind the statement.
// $ refused 6:12
// a `;` is missing
// Write `;` before `Console`.
def main() {
  val n = 1
  Console.OUT.println(n);
}
