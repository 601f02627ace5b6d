// There are no variables outside of defs.
// $ refused 5:5
// `n` is a variable outside of classes and defs
// Write `static val NAME = VALUE;` for a constant, or make it a field of an object.
var n: Int = 0;
def main() {}
