// at goes to a place.
// $ refused 5:18
// where `at` goes is a Place, and this is an Int
// Give it a Place.
def main() { at (1) Console.OUT.println(1); }
