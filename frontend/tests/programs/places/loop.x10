// A loop over all places, in their order.
// $ run --places 4
// 0: 0
// 1: 1
// 1: again
// 2: 2
// 2: again
// 3: 3
def main() {
  for (p in Place.places()) at (p) Console.OUT.println(p.id);
  for (p in Place.places()) {
    if (p.id == 0) continue;
    if (p.id == 3) break;
    at (p) Console.OUT.println("again");
  }
}
