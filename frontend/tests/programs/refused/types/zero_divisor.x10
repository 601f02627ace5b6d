// A divisor that is the constant 0.
// $ refused 5:44
// the divisor is 0
// Divide by another number.
def main() { Console.OUT.println(here.id / 0); }
