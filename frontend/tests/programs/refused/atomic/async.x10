// Nothing starts there.
// $ refused 6:12
// `async` is inside of `atomic`
// Nothing starts or goes elsewhere inside of it: put it outside.
def main() {
  atomic { async Console.OUT.println(1); }
}
