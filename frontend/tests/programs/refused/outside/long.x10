// Int has 64 bits.
// $ refused 5:14
// there is no type `Long`
// Write `Int`; it has 64 bits.
def twice(n: Long): Long = n + n;
def main() {}
