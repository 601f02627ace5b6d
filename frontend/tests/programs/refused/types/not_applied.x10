// A number isn't called.
// $ refused 5:55
// an Int is followed by `(..)`
// A rail has an index and a GlobalRef is opened so; a def is called by its name.
def main() { val n = 1 + here.id; Console.OUT.println(n(2)); }
