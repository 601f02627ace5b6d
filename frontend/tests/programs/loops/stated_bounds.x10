// Ranges whose ends are computed, with a bound.
// $ run
// 0: 1
// 0: 2
// 0: 3
// 0: end
// 0: end
// 0: 4
// 0: 5
// 0: 6
// 0: 7
// 0: 8
// 0: end
// 0: 9223372036854775806
// 0: 9223372036854775807
// 0: end
def show(a: Int, b: Int) {
  for (i in a..b) @bound(5) Console.OUT.println(i);
  Console.OUT.println("end");
}
def main() {
  show(1, 3);
  show(3, 1);
  show(4, 8);
  show(9223372036854775806, 9223372036854775807);
}
