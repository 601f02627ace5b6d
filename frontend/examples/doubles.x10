// Doubles 1 ten times.
// $ run
// 0: 1024
def main() {
  var n: Int = 1;
  for (i in 1..10) n = n + n;
  Console.OUT.println(n);
}
