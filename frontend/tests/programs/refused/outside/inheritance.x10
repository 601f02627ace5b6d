// Nor inheritance.
// $ refused 5:11
// `extends` isn't part of the subset
// A class has fields alone, and stands by itself.
class Box extends Other { var n: Int; }
def main() {}
