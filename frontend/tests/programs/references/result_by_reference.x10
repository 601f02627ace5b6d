// An activity elsewhere brings its result by a reference.
// $ run --places 3
// 0: 6
class Sum { var n: Int; }
def add(to: GlobalRef[Sum], n: Int) { val s = to(); atomic s.n += n; }
def main() {
  val s = new Sum(0);
  val to = GlobalRef(s);
  finish for (p in Place.places()) async at (p) {
    val mine = here.id + 1;
    at (to.home) add(to, mine);
  }
  Console.OUT.println(s.n);
}
