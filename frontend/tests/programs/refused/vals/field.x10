// Nor a field that is a val.
// $ refused 8:3
// the field `n` is a val
// Declare it by `var` in its class.
class Box { val n: Int; }
def main() {
  val b = new Box(1);
  b.n = 2;
}
