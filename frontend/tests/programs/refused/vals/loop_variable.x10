// Nor the variable of a loop.
// $ refused 6:19
// `i` is a val, and gets a second value
// Copy it: `var i1 = i;`.
def main() {
  for (i in 1..3) i = 5;
}
