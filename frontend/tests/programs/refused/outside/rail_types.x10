// Also as a type.
// $ refused 5:12
// a rail has bytes alone
// Write `Rail[Byte]`; a list of objects takes the place of others.
def sum(r: Rail[Long]): Int = 0;
def main() {}
