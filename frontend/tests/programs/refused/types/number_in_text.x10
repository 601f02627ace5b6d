// Nothing turns a number into a text.
// $ refused 6:32
// the other side of `+` is a String, and this is an Int
// Nothing turns a number into a text: print them in two lines.
def main() {
  Console.OUT.println("n = " + 1);
}
