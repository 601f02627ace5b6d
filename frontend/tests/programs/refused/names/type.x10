// A type that there isn't.
// $ refused 6:13
// there is no type `Conter`
// Did you mean `Counter`?
class Counter { var n: Int; }
def show(c: Conter) {}
def main() {}
