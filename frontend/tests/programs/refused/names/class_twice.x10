// Two classes of one name.
// $ refused 6:7
// there is a class of this name already
// Give one of the two another name.
class Box { var n: Int; }
class Box { var s: String; }
def main() {}
