// An index is a number.
// $ refused 5:43
// an index is an Int, and this is a String
// Give it an Int.
def main() { val r = new Rail[Byte](1); r("a") = 1; }
