// A field has a type.
// $ refused 5:17
// the field `n` has no type
// Write `var n: TYPE;`.
class Box { var n; }
def main() {}
