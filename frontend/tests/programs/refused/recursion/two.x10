// Two defs that call each other.
// $ refused 6:38
// this leads back: even -> odd -> even
// Begin it by `async` in a `finish`, with an object for the result: only activities recur.
def even(n: Int): Boolean = n == 0 || odd(n - 1);
def odd(n: Int): Boolean = n != 0 && even(n - 1);
def main() { Console.OUT.println(even(4)); }
