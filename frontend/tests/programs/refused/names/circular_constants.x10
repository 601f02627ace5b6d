// A constant that is made from itself.
// $ refused 6:16
// `A` is defined by itself
// Give it a value that doesn't need it.
static val A = B + 1;
static val B = A + 1;
def main() {}
