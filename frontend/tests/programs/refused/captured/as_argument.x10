// Nor as an argument of the call that an async consists of.
// $ refused 8:21
// `n` is a var, and `async` captures vals alone
// Copy it before: `val n1 = n;`. What the body changes is a field of an object.
def show(n: Int) {}
def main() {
  var n: Int = 1;
  finish async show(n);
}
