// A place that no run has.
// $ refused 5:24
// there is no such place
// Places have the numbers 0 to 63 at most.
def main() { at (Place(64)) Console.OUT.println(1); }
