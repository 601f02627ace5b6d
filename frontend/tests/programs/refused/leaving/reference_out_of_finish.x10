// A reference isn't returned out of a finish.
// $ refused 7:12
// a GlobalRef[Box] is returned out of `finish`
// Put it into an object of a class, or return it behind the end.
class Box { var n: Int; }
def made(): GlobalRef[Box] {
  finish { return GlobalRef(new Box(1)); }
}
def main() {}
