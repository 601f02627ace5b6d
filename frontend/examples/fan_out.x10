// Eight activities, two at each of four places, put their results into bytes of their own at place 0.
// $ run --places 4
// 0: 0
// 0: 1
// 0: 4
// 0: 9
// 0: 0
// 0: 5
// 0: 12
// 0: 21
class Results { val bytes: Rail[Byte]; }
def put(to: GlobalRef[Results], i: Int, value: Int) { to().bytes(i) = value; }
def work(to: GlobalRef[Results], i: Int) {
  val value = i * here.id;
  at (to.home) put(to, i, value);
}
def main() {
  val results = new Results(new Rail[Byte](8));
  val to = GlobalRef(results);
  var p: Place = Place(0);
  finish for (i in 0..7) {
    val target = p;
    async at (target) work(to, i);
    p = p.next();
  }
  for (i in 0..7) Console.OUT.println(results.bytes(i));
}
