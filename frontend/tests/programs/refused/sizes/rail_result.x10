// A def that may fail can't give a rail.
// $ refused 5:32
// `made` gives a Rail[Byte], and here it may have none: no rail has this length
// Put the result into an object of a class, and give that.
def made(n: Int): Rail[Byte] = new Rail[Byte](n);
def main() {}
