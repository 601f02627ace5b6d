// No def is called inside of atomic.
// $ refused 7:32
// a def is called inside of `atomic`
// Write out here what it does, or call it outside.
def one(): Int = 1;
def main() {
  atomic { Console.OUT.println(one()); }
}
