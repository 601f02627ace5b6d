// Place(i) where there is none.
// $ run
// 0: 0
// 0: no_such_place.x10:8: there is no such place
// 0: 0
// 0: no_such_place.x10:8: there is no such place
// 0: 0
def name(i: Int): Int = Place(i).id;
def main() {
  Console.OUT.println(name(0));
  Console.OUT.println(name(64));
  Console.OUT.println(name(-1));
}
