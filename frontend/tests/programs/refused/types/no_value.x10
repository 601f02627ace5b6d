// A local variable has a value from the beginning.
// $ refused 5:18
// `n` has no value
// Write `var n = ..;`.
def main() { var n: Int; n = 1; }
