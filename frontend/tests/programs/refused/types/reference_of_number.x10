// A reference names an object.
// $ refused 5:32
// a GlobalRef names an object, and this is an Int
// Put the value into an object of a class.
def main() { val g = GlobalRef(1 + here.id); }
