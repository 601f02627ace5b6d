// Nor methods of objects.
// $ refused 5:42
// `this` isn't part of the subset
// Write a def that has the object as a parameter.
class Box { var n: Int; def get(): Int = this.n; }
def main() {}
