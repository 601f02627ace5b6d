// What has to change together is changed in one atomic region, and read in one.
// $ run
// 0: 100
// 0: 100
// 0: 100
// 0: 10
// 0: 90
class Accounts { var first: Int; var second: Int; }
def move(a: Accounts) {
  for (i in 1..5) atomic {
    if (a.first >= 30) {
      a.first = a.first - 30;
      a.second = a.second + 30;
    }
  }
}
def watch(a: Accounts) {
  for (i in 1..3) {
    var first: Int = 0;
    var second: Int = 0;
    atomic {
      first = a.first;
      second = a.second;
    }
    Console.OUT.println(first + second);
  }
}
def main() {
  val a = new Accounts(100, 0);
  finish {
    async move(a);
    async watch(a);
  }
  Console.OUT.println(a.first);
  Console.OUT.println(a.second);
}
