// A byte is 0 to 255, and keeps the lowest 8 bits of what is put into it.
// $ run
// 0: 255
// 0: 0
// 0: 255
// 0: 3
def main() {
  val r = new Rail[Byte](3);
  r(0) = 255;
  r(1) = 256;
  r(2) = -1;
  for (i in 0..2) Console.OUT.println(r(i));
  Console.OUT.println(r.size);
}
