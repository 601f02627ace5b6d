// Nothing waits.
// $ refused 6:12
// `finish` is inside of `atomic`
// Nothing waits inside of it: put the finish around it.
def main() {
  atomic { finish Console.OUT.println(1); }
}
