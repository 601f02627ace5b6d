// A finish waits for activities two places away.
// $ run
// in any order
// 0: all workers are done
// 1: the foreman goes
// 2: 1
// 2: 2
def work(n: Int) {
  for (i in 1..30) {}
  Console.OUT.println(n);
}
def foreman() {
  async at (Place(2)) work(1);
  async at (Place(2)) work(2);
  Console.OUT.println("the foreman goes");
}
def main() {
  finish async at (Place(1)) foreman();
  Console.OUT.println("all workers are done");
}
