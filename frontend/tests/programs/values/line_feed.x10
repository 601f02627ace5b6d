// A text that holds a line feed takes several lines.
// $ run
// 0: one
// two
// 0: three
def main() {
  Console.OUT.println("one\ntwo");
  Console.OUT.println("three");
}
