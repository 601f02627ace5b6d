// Products bind closer than sums, sums closer than comparisons, && closer than ||.
// $ run
// 0: 7
// 0: 9
// 0: 5
// 0: 10
// 0: true
// 0: true
// 0: 3
// 0: true
def main() {
  var two: Int = 2;
  Console.OUT.println(1 + two * 3);
  Console.OUT.println((1 + two) * 3);
  Console.OUT.println(10 - two - 3);
  Console.OUT.println(100 / two / 5);
  Console.OUT.println(1 + two < 4 == true);
  Console.OUT.println(two == 2 || two == 3 && two == 4);
  Console.OUT.println(-two + 5);
  Console.OUT.println(!(two > 3));
}
