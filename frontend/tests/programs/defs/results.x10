// A def gives a number, a truth value, a text, a place, an object.
// $ run
// 0: 7
// 0: true
// 0: seven
// 0: 0
// 0: 2
class Pair { val a: Int; val b: Int; }
def number(): Int = 7;
def truth(): Boolean { return 1 < 2; }
def text(): String = "seven";
def place(): Place = here;
def pair(): Pair = new Pair(1, 2);
def main() {
  Console.OUT.println(number());
  Console.OUT.println(truth());
  Console.OUT.println(text());
  Console.OUT.println(place().id);
  Console.OUT.println(pair().b);
}
