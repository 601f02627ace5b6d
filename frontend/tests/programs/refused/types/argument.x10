// An argument of another type.
// $ refused 6:19
// `n` is an Int, and this is a String
// Give it an Int.
def show(n: Int) {}
def main() { show("one"); }
