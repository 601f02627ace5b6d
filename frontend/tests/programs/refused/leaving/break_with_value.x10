// break has no value.
// $ refused 5:36
// `break` has a value
// Write `break;`. It leaves the innermost loop.
def main() { for (i in 1..3) break i; }
