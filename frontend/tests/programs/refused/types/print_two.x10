// A line has one value.
// $ refused 5:14
// println has more than one argument
// Print each in a line of its own.
def main() { Console.OUT.println(1, 2); }
