// A call that gives nothing.
// $ refused 6:22
// this is no value
// Take an expression with a value.
def show() {}
def main() { val n = show(); }
