// A loop over a computed range says how many turns it makes at most.
// $ refused 6:13
// the loop doesn't say how many turns it makes at most
// Write `for (i in ..) @bound(1000) ..`.
def show(n: Int) {
  for (i in 1..n) Console.OUT.println(i);
}
def main() {}
