// An index outside of the rail ends the def, and says so.
// $ run
// 0: written
// 0: outside.x10:13: the index is outside of the rail
// 0: outside.x10:13: the index is outside of the rail
// 0: 2
// 0: outside.x10:10: the index is outside of the rail
// 0: 0
def read(r: Rail[Byte], i: Int): Int {
  return r(i) + 1;
}
def write(r: Rail[Byte], i: Int) {
  r(i) = 1;
  Console.OUT.println("written");
}
def main() {
  val r = new Rail[Byte](2);
  write(r, 1);
  write(r, 2);
  write(r, -1);
  Console.OUT.println(read(r, 1));
  Console.OUT.println(read(r, 5));
}
