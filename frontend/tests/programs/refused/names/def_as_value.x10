// A def is no value.
// $ refused 6:34
// `one` is no value
// Call a def by `()`; make an object by `new`.
def one(): Int = 1;
def main() { Console.OUT.println(one); }
