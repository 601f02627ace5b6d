// here, next() and id, around the places.
// $ run --places 3
// 0: 0
// 0: 1
// 0: 0
// 0: 3
// 0: 3
def main() {
  Console.OUT.println(here.id);
  Console.OUT.println(here.next().id);
  Console.OUT.println(here.next().next().next().id);
  Console.OUT.println(Place.MAX_PLACES);
  Console.OUT.println(Place.place(2).id + Place(1).id + Place.FIRST_PLACE.id);
}
