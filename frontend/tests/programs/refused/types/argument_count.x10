// Too few arguments.
// $ refused 6:14
// `show` has 2 parameters, and gets 1 arguments
// It is `def show(n: Int, s: String)`.
def show(n: Int, s: String) {}
def main() { show(1); }
