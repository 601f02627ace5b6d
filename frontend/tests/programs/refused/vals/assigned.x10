// A val gets no second value.
// $ refused 7:3
// `n` is a val, and gets a second value
// Declare it by `var`.
def main() {
  val n = 1;
  n = 2;
}
