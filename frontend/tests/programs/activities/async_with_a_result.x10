// The result of a def that an async calls is dropped.
// $ run
// 0: 8
// 0: 10
// 0: 12
def twice(n: Int): Int { Console.OUT.println(n + n); return n + n; }
def main() {
  finish async twice(4);
  at (here.next()) twice(5);
  twice(6);
}
