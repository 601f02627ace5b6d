// break, continue and return out of an atomic region.
// $ run
// 0: 2
// 0: five
// 0: 3
// 0: other
class Box { var n: Int; }
def work(b: Box): String {
  for (i in 1..9) {
    atomic {
      if (i == 1) continue;
      b.n += i;
      if (i == 3) break;
    }
    Console.OUT.println(b.n);
  }
  atomic { if (b.n == 5) return "five"; }
  return "other";
}
def main() {
  Console.OUT.println(work(new Box(0)));
  Console.OUT.println(work(new Box(1)));
}
