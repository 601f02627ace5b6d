// An async of a call whose arguments call something computes them in the activity.
// $ run
// 0: twice
// 0: 4
def twice(n: Int): Int { Console.OUT.println("twice"); return n + n; }
def show(n: Int) { Console.OUT.println(n); }
def main() {
  val n = here.id + 2;
  finish async show(twice(n));
}
