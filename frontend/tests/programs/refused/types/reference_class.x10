// A reference of another class.
// $ refused 7:22
// this is a GlobalRef[A] of a B
// Write `GlobalRef[B](..)`.
class A { var n: Int; }
class B { var n: Int; }
def main() { val g = GlobalRef[A](new B(1)); }
