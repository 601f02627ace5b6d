// Nor is a field.
// $ refused 6:34
// this statement does nothing
// Use the value, or take the statement out.
class Box { var n: Int; }
def main() { val b = new Box(1); b.n; }
