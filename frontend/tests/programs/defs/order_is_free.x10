// A def may stand below those that call it.
// $ run
// 0: second
def main() { first(); }
def first() { second(); }
def second() { Console.OUT.println("second"); }
