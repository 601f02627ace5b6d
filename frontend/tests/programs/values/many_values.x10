// More values than a short row of registers, all alive at the end.
// $ run
// 0: 36
// 0: 36
// 0: 12
// 0: 40320
def sum(a: Int, b: Int, c: Int, d: Int, e: Int, f: Int, g: Int, h: Int): Int = a + b + c + d + e + f + g + h;
def main() {
  var a: Int = 1; var b: Int = a + 1; var c: Int = b + 1; var d: Int = c + 1;
  var e: Int = d + 1; var f: Int = e + 1; var g: Int = f + 1; var h: Int = g + 1;
  Console.OUT.println(sum(a, b, c, d, e, f, g, h));
  Console.OUT.println(sum(h, g, f, e, d, c, b, a));
  Console.OUT.println(sum(a, a, b, b, a, a, b, b));
  Console.OUT.println(a * b * c * d * e * f * g * h);
}
