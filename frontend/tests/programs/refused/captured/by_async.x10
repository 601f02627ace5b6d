// Nor by async.
// $ refused 7:18
// `n` is a var, and `async` captures vals alone
// Copy it before: `val n1 = n;`. What the body changes is a field of an object.
def main() {
  var n: Int = 1;
  finish async { n = 2; }
}
