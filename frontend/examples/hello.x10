// Hello from each place. The activity that greets starts the greeting of the next place, until that is the first one again.
// $ run --places 4
// 0: hello from place
// 0: 0
// 0: all have greeted
// 1: hello from place
// 1: 1
// 2: hello from place
// 2: 2
// 3: hello from place
// 3: 3
def greet(first: Place) {
  Console.OUT.println("hello from place");
  Console.OUT.println(here.id);
  if (here.next() != first) async at (here.next()) greet(first);
}
def main() {
  val first = here;
  finish async at (first) greet(first);
  Console.OUT.println("all have greeted");
}
