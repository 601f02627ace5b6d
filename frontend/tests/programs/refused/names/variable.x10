// A variable that there isn't, and a near one.
// $ refused 7:23
// there is no `nunber` here
// Did you mean `number`?
def main() {
  val number = 1;
  Console.OUT.println(nunber);
}
