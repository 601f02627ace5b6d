// A block that isn't closed.
// $ refused 8:2
// the source ends too early
// Close what is open: a `}` is missing.
def main() {
  if (true) {
    Console.OUT.println(1);
}
