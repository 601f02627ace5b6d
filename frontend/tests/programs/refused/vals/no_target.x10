// A call can't be given a value.
// $ refused 6:14
// this can't be given a value
// A variable, a field of an object and a byte of a rail can.
def one(): Int = 1;
def main() { one() = 2; }
