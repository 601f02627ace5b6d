// A rail has bytes.
// $ refused 6:20
// there is no Rail[Int]
// A rail has bytes: write Rail[Byte]. A list of objects takes the place of other rails.
def main() {
  val r = new Rail[Int](3);
}
