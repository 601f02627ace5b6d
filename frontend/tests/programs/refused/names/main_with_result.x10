// main gives nothing.
// $ refused 5:5
// main has a parameter or a result
// Write `def main() { .. }`.
def main(): Int = 1;
