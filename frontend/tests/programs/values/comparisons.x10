// All six comparisons, as values.
// $ run
// 0: true
// 0: true
// 0: false
// 0: false
// 0: false
// 0: true
// 0: false
// 0: true
// 0: false
// 0: true
// 0: true
// 0: false
// 0: false
// 0: false
// 0: true
// 0: true
// 0: false
// 0: true
def show(b: Boolean) { Console.OUT.println(b); }
def all(a: Int, b: Int) {
  show(a < b);
  show(a <= b);
  show(a > b);
  show(a >= b);
  show(a == b);
  show(a != b);
}
def main() {
  all(1, 2);
  all(2, 2);
  all(-1, -2);
}
