// Nor in the place of an async at.
// $ refused 7:20
// `p` is a var, and `async` captures vals alone
// Copy it before: `val p1 = p;`. What the body changes is a field of an object.
def main() {
  var p: Place = here;
  finish async at (p) Console.OUT.println(1);
}
