// An escape that there isn't.
// $ refused 6:23
// `\q` is no escape
// The escapes of a text are \n, \t, \" and \\.
def main() {
  Console.OUT.println("a\qb");
}
