// A var isn't captured by at.
// $ refused 7:40
// `n` is a var, and `at` captures vals alone
// Copy it before: `val n1 = n;`. What the body changes is a field of an object.
def main() {
  var n: Int = 1;
  at (here.next()) Console.OUT.println(n);
}
