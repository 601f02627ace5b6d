// A reference isn't its object.
// $ refused 6:67
// a GlobalRef has no `n`
// It has `home`; its object is `g()`, at its home.
class Box { var n: Int; }
def main() { val g = GlobalRef(new Box(1)); Console.OUT.println(g.n); }
