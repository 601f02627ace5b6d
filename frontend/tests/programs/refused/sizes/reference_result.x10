// Nor a reference.
// $ refused 6:54
// `made` gives a GlobalRef[Box], and here it may have none: division by zero
// Put the result into an object of a class, and give that.
class Box { var n: Int; }
def made(n: Int): GlobalRef[Box] = GlobalRef(new Box(1 / n));
def main() {}
