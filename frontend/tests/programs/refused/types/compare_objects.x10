// Nothing compares two objects.
// $ refused 9:7
// nothing compares two values of the type Box
// Compare a number that tells them apart, such as a field.
class Box { var n: Int; }
def main() {
  val a = new Box(1);
  val b = new Box(1);
  if (a == b) Console.OUT.println("same");
}
