// Nor two texts.
// $ refused 8:7
// nothing compares two values of the type String
// Compare their lengths, or a number that goes with them.
def main() {
  val s = "a";
  val t = s + "b";
  if (t == "ab") Console.OUT.println("same");
}
