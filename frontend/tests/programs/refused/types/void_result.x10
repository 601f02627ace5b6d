// A value that a def doesn't give.
// $ refused 5:21
// `show` has no result
// Write the type behind its parameters: `def show(..): Int`.
def show() { return 1; }
def main() {}
