// Each of four places sums its own part of the numbers from 1 to 400.
// $ run --places 4
// 0: 5050
// 0: 15050
// 0: 25050
// 0: 35050
// 0: 80200
def part(): Int {
  var n: Int = here.id * 100;
  var sum: Int = 0;
  for (i in 1..100) {
    n += 1;
    sum += n;
  }
  return sum;
}
def main() {
  var total: Int = 0;
  var p: Place = Place(0);
  for (i in 1..4) {
    val sum = at (p) part();
    Console.OUT.println(sum);
    total += sum;
    p = p.next();
  }
  Console.OUT.println(total);
}
