// Activities in any order, and main behind them.
// $ run
// in any order
// 0: 1
// 0: 2
// 0: 3
// 0: 4
def main() {
  finish {
    async Console.OUT.println(1);
    async Console.OUT.println(2);
    async Console.OUT.println(3);
  }
  Console.OUT.println(4);
}
