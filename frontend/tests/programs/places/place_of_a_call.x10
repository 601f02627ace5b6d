// async at a place that a call gives goes there as an activity.
// $ run --places 2
// 0: asked
// 0: asked
// 1: there
// 1: there too
def other(): Place { Console.OUT.println("asked"); return here.next(); }
def main() {
  finish async at (other()) Console.OUT.println("there");
  at (other()) Console.OUT.println("there too");
}
