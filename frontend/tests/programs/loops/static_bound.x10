// A bound may be a constant of the program.
// $ run
// 0: 1
// 0: 2
// 0: 3
// 0: 4
// 0: 1
// 0: 2
// 0: 3
static val MOST = 2 * 2;
class Limits { static val TURNS = MOST - 1; }
def main() {
  for (i in 1..MOST) Console.OUT.println(i);
  val turns = Limits.TURNS;
  for (i in 1..turns) Console.OUT.println(i);
}
