// They belong to the innermost loop.
// $ run
// 0: 11
// 0: 31
// 0: 32
// 0: 33
// 0: 2
// 0: 4
// 0: 6
def main() {
  for (i in 1..4) {
    if (i == 2) continue;
    for (j in 1..9) {
      if (j > i) break;
      Console.OUT.println(i * 10 + j);
    }
    if (i >= 3) break;
  }
  var n: Int = 0;
  while (true) @bound(100) {
    n++;
    if (n % 2 == 1) continue;
    if (n > 6) break;
    Console.OUT.println(n);
  }
}
