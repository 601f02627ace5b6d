// Nothing goes elsewhere.
// $ refused 6:12
// `at` is inside of `atomic`
// Nothing starts or goes elsewhere inside of it: put it outside.
def main() {
  atomic { at (here) Console.OUT.println(1); }
}
