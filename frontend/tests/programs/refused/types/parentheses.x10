// next is written with parentheses, and id without.
// $ refused 5:39
// `next` is written with `()`
// Write `.next()`.
def main() { Console.OUT.println(here.next.id); }
