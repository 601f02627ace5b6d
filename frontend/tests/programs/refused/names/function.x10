// A def that there isn't.
// $ refused 6:14
// there is no def `shaw`
// Did you mean `show`?
def show(n: Int) {}
def main() { shaw(1); }
