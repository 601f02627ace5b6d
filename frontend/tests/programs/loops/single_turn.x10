// A loop whose body always leaves it.
// $ run
// 0: 6
// 0: 1
// 0: 2
// 0: 3
def first(n: Int): Int {
  for (i in 5..9) return i + n;
  return 0;
}
def main() {
  Console.OUT.println(first(1));
  for (i in 1..3) {
    for (j in 1..3) break;
    Console.OUT.println(i);
  }
  for (i in 1..3) { return; }
}
