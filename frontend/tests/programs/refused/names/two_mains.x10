// A program with two.
// $ refused 6:5
// there is a second main
// Give it another name.
class A { static def main() {} }
def main() {}
