// The first value of a field is a constant.
// $ refused 5:28
// the first value of a field is no constant
// Give it to `new`.
class Box { var p: Place = here; }
def main() {}
