// More variables than a function has parameters.
// $ refused 9:10
// the body of `async` uses 17 variables from outside
// At most 16 are copied: put some into an object.
def main() {
  val n = here.id;
  val a = n + 1; val b = n + 2; val c = n + 3; val d = n + 4; val e = n + 5; val f = n + 6; val g = n + 7; val h = n + 8;
  val i = n + 9; val j = n + 10; val k = n + 11; val l = n + 12; val m = n + 13; val o = n + 14; val p = n + 15; val q = n + 16;
  finish async { Console.OUT.println(a + b + c + d + e + f + g + h + i + j + k + l + m + o + p + q + n); }
}
