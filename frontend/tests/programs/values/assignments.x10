// Each assignment with an operation, of variables, fields and bytes.
// $ run
// 0: 6
// 0: 9
// 0: 1
// 0: 255
class Box { var n: Int; val r: Rail[Byte]; }
def main() {
  var n: Int = 20;
  n += 5;
  n -= 1;
  n *= 3;
  n /= 2;
  n %= 10;
  n++;
  n--;
  Console.OUT.println(n);
  val b = new Box(4, new Rail[Byte](2));
  b.n += b.n;
  b.n++;
  b.r(1) = 250;
  b.r(1) += 7;
  b.r(0)--;
  Console.OUT.println(b.n);
  Console.OUT.println(b.r(1));
  Console.OUT.println(b.r(0));
}
