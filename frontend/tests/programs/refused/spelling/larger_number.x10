// A number of far more than 64 bits.
// $ refused 6:23
// the number is too large
// An Int has 64 bits: at most 9223372036854775807.
def main() {
  Console.OUT.println(99999999999999999999);
}
