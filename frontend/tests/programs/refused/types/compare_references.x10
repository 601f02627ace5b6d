// Nor two references.
// $ refused 8:7
// nothing compares two values of the type GlobalRef[Box]
// Compare `.home`.
class Box { var n: Int; }
def main() {
  val a = GlobalRef(new Box(1));
  if (a == a) Console.OUT.println("same");
}
