// Lines are printed by Console.OUT.println.
// $ refused 5:14
// this isn't how a line is printed
// Write `Console.OUT.println(x);`.
def main() { System.println(1); }
