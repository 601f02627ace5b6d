// The length may be computed; where no rail has it, the def ends.
// $ run
// 0: 0
// 0: 65535
// 0: lengths.x10:8: no rail has this length
// 0: lengths.x10:8: no rail has this length
def make(n: Int) {
  val r = new Rail[Byte](n);
  Console.OUT.println(r.size);
}
def main() {
  make(0);
  make(65535);
  make(65536);
  make(-1);
}
