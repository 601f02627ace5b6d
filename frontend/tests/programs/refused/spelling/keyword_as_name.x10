// A word of X10 is no name.
// $ refused 6:7
// `at` is a word of X10, and no name
// Take another name.
def main() {
  val at = 1;
}
