// A text that isn't closed in its line.
// $ refused 6:23
// the text has no closing quote
// A text is closed by `"` in its line; a line feed in it is \n.
def main() {
  Console.OUT.println("one);
}
