// So does a while.
// $ refused 6:10
// the loop doesn't say how many turns it makes at most
// Write `while (..) @bound(1000) ..`.
def main() {
  while (here.id == 0) Console.OUT.println(1);
}
