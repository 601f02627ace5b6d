// The order of activities isn't defined; only that the finish waits for all of them.
// $ run
// in any order
// 0: 1
// 0: 2
// 0: 3
// 0: 10
def show(n: Int) { Console.OUT.println(n); }
def main() {
  finish {
    async show(1);
    async show(2);
    async show(3);
  }
  Console.OUT.println(10);
}
