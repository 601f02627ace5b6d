// Too few values for the fields.
// $ refused 6:22
// new Pair has 1 arguments, and 2 fields ask for one
// Give a value for each field without one, in their order: a: Int, s: String.
class Pair { val a: Int; val s: String; }
def main() { val p = new Pair(1); }
