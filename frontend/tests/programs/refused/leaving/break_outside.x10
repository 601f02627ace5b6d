// break is in a loop.
// $ refused 5:14
// `break` is in no loop
// Put it into the body of a loop.
def main() { break; }
