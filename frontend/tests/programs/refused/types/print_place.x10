// A place is printed by its number.
// $ refused 5:34
// a Place can't be printed
// Print its `id`.
def main() { Console.OUT.println(here); }
