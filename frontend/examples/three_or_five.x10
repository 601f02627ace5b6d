// Exercise 3: the sum of the numbers from 1 to 100 that 3 or 5 divides.
// $ run
// 0: 2418
def main() {
  var sum: Int = 0;
  for (n in 1..100) {
    if (n % 3 == 0 || n % 5 == 0) sum += n;
  }
  Console.OUT.println(sum);
}
