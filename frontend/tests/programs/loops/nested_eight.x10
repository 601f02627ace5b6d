// Eight loops in each other.
// $ run
// 0: 256
def main() {
  var n: Int = 0;
  for (a in 1..2) for (b in 1..2) for (c in 1..2) for (d in 1..2)
    for (e in 1..2) for (f in 1..2) for (g in 1..2) for (h in 1..2) n++;
  Console.OUT.println(n);
}
