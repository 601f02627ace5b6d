// A result of another type.
// $ refused 5:29
// the result is a String, and this is an Int
// Nothing turns a number into a text: print them in two lines.
def text(): String { return 1; }
def main() {}
