// Objects have no methods.
// $ refused 8:5
// `Counter` has no field `add`, and objects have no methods
// Write a def, and call it by `add(..)`.
class Counter { var n: Int; }
def main() {
  val c = new Counter(1);
  c.add();
}
