// break, continue and return out of a finish, all in one.
// $ run
// 0: 1
// 0: 3
// 0: 4
// 0: 1
// 0: 3
// 0: 4
// 0: 5
// 0: 6
// 0: 70
class Box { var n: Int; }
def work(b: Box, k: Int): Int {
  for (i in 1..9) {
    finish {
      async { b.n += 1; }
      if (i == 2) continue;
      if (i == k) break;
      if (i == 7) return 70;
    }
    Console.OUT.println(i);
  }
  return b.n;
}
def main() {
  Console.OUT.println(work(new Box(0), 4));
  Console.OUT.println(work(new Box(0), 8));
}
