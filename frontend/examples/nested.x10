// A finish in a finish: the inner one doesn't wait for what main has started.
// $ run
// in any order
// 0: 2
// 0: 2
// 0: 20
// 0: 1
// 0: 30
def slow() {
  for (i in 1..100) {}
  Console.OUT.println(1);
}
def two() { Console.OUT.println(2); }
def plant() {
  async two();
  async two();
}
def branch() {
  finish plant();
  Console.OUT.println(20);
}
def main() {
  finish {
    async slow();
    async branch();
  }
  Console.OUT.println(30);
}
