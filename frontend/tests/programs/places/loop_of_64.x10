// As many places as there may be.
// $ run --places 64
// 0: 2016
def main() {
  var n: Int = 0;
  for (p in Place.places()) n += at (p) here.id;
  Console.OUT.println(n);
}
