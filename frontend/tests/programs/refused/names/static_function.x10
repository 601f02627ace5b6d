// A def that a class doesn't have.
// $ refused 6:40
// `Tools` has no def `two`
// Write `static def two(..)` in it.
class Tools { static def one(): Int = 1; }
def main() { Console.OUT.println(Tools.two()); }
