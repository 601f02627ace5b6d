// A class that there isn't.
// $ refused 6:22
// there is no class `Conter`
// Did you mean `Counter`?
class Counter { var n: Int; }
def main() { val c = new Conter(1); }
