// A place that has reported to a finish is woken by an activity from a third place, and reports again.
// $ run
// in any order
// 0: 9
// 1: 1
// 1: 2
def show(n: Int) { Console.OUT.println(n); }
def late() {
  for (i in 1..30) {}
  async at (Place(1)) show(2);
}
def main() {
  finish {
    async at (Place(1)) show(1);
    async at (Place(2)) late();
  }
  Console.OUT.println(9);
}
