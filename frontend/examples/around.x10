// Exercise 10: the sum of the numbers of all places.
// $ run --places 4
// 0: 6
def main() {
  var sum: Int = 0;
  for (p in Place.places()) sum += at (p) here.id;
  Console.OUT.println(sum);
}
