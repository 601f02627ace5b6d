// A field that there isn't.
// $ refused 8:25
// `Counter` has no field `numbr`
// Did you mean `number`?
class Counter { var number: Int; }
def main() {
  val c = new Counter(1);
  Console.OUT.println(c.numbr);
}
