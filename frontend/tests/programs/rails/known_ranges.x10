// Where the length of a rail and the range of its index are known, nothing can fail; at their ends it can.
// $ run
// 0: 214
// 0: 109
// 0: 109
// 0: known_ranges.x10:15: the index is outside of the rail
def main() {
  val r = new Rail[Byte](4);
  for (i in 0..3) r(i) = i * i;
  finish for (i in 2..3) async { r(i) = r(i) + 100; }
  var sum: Int = 0;
  for (i in 0..3) sum += r(i);
  Console.OUT.println(sum);
  Console.OUT.println(r(3));
  for (i in 3..4) Console.OUT.println(r(i));
}
