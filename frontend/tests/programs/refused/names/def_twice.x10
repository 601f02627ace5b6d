// Two defs of one name.
// $ refused 6:5
// there is a def of this name already
// Give one of the two another name.
def show(n: Int) {}
def show(s: String) {}
def main() {}
