// Counted loops. How many turns they make is known, so `x10c bounds` says before the run how many steps main takes.
// $ run
// 0: 3628800
// 0: 1
// 0: 2
// 0: 3
// 0: 2
// 0: 4
// 0: 6
def main() {
  var product: Int = 1;
  for (i in 1..10) product *= i;
  Console.OUT.println(product);
  for (row in 1..2) for (column in 1..3) Console.OUT.println(row * column);
}
