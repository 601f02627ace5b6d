// What an async captures: vals, parameters, loop variables, values at that moment.
// $ run
// 0: 3
// 0: 7
// 0: 17
class Box { var n: Int; }
def start(p: Int, b: Box) {
  val v = p * 2;
  finish async { atomic b.n += p + v; }
}
def main() {
  val b = new Box(0);
  start(1, b);
  Console.OUT.println(b.n);
  var n: Int = 7;
  val seven = n;
  finish { async { Console.OUT.println(seven); } n = 8; }
  finish for (i in 1..3) { val k = i * i; async atomic b.n += k; }
  Console.OUT.println(b.n);
}
