// A range that begins below zero.
// $ run
// 0: below_zero.x10:6: the index is outside of the rail
def main() {
  val r = new Rail[Byte](4);
  for (i in -1..2) r(i) = i;
}
